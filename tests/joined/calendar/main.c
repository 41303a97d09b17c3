int days_of(int month, int year), valid(int day, int month, int year);
extern unsigned days_before(int year);
static unsigned days;

static void count(int day, int month, int year)
{
    int i;

    days = days_before(year) + day - 1;
    for (i = 1; i < month; i++)
        days += days_of(i, year);
}

int main(void)
{
    int day, month, year;

    for (;;) {
        day = __in(0);
        month = __in(1);
        year = __in(2);
        if (!valid(day, month, year)) {
            __out(15, year);
            continue;
        }
        count(day, month, year);
        __out(3, days);
        __out(4, (days + 1) % 7);
    }
}
