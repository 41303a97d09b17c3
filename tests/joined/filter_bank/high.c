/* The high band: the sample less the mean of the last four. */
extern int taps[8], shift;

static int line[4];
static int at;

static int sum(void)
{
    int i, s;

    s = 0;
    for (i = 0; i < 4; i++)
        s += line[i] >> 2;
    return s;
}

int high(int x)
{
    line[at] = x;
    at = (at + 1) & 3;
    return (x - sum()) * taps[0] >> shift;
}
