static int days(int year)
{
    return year % 4 == 0 && (year % 100 != 0 || year % 400 == 0) ? 366 : 365;
}

int leap(int year)
{
    return days(year) == 366;
}

/* the days from the first of January 1980 to that of another year */
unsigned days_before(int year)
{
    unsigned sum;

    sum = 0;
    while (year-- > 1980)
        sum += days(year);
    return sum;
}
