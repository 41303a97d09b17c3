extern unsigned row(int y);

static unsigned bits(unsigned word)
{
    unsigned count;

    for (count = 0; word; count++)
        word &= word - 1;
    return count;
}

unsigned living(void)
{
    int y;
    unsigned sum;

    sum = 0;
    for (y = 0; y < 16; y++)
        sum += bits(row(y));
    return sum;
}
