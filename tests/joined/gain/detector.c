/* The level: it rises fast and falls slowly. */
extern int attack, decay;
static int level;

static int magnitude(int x)
{
    if (x == -32767 - 1)
        return 32767;
    return x < 0 ? -x : x;
}

int detect(int x)
{
    x = magnitude(x);
    if (x > level)
        level += (x - level) >> attack;
    else
        level -= (level - x) >> decay;
    return level;
}
