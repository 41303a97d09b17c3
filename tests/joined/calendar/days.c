extern int leap(int year);
static int days[12] = {31, 28, 31, 30, 31, 30, 31, 31, 30, 31, 30, 31};

int days_of(int month, int year)
{
    return days[month - 1] + (month == 2 && leap(year));
}

int valid(int day, int month, int year)
{
    return year >= 1980 && year < 2100 && month >= 1 && month <= 12 && day >= 1 && day <= days_of(month, year);
}
