/* The low band: eight taps over a line of its own. */
extern int taps[8], shift;

static int line[8];
static int at;

static int sum(void)
{
    int i, s;

    s = 0;
    for (i = 0; i < 8; i++)
        s += line[(at + i) & 7] * taps[i];
    return s;
}

int low(int x)
{
    at = (at - 1) & 7;
    line[at] = x;
    return sum() >> shift;
}
