extern unsigned rows[16];
extern int cell(int x, int y);
static unsigned next[16];

static int bit(int x, int y)
{
    int i, j, count;

    count = 0;
    for (i = -1; i <= 1; i++)
        for (j = -1; j <= 1; j++)
            if (i || j)
                count += cell(x + i, y + j);
    return count == 3 || (count == 2 && cell(x, y));
}

void step(void)
{
    int x, y;

    for (y = 0; y < 16; y++) {
        next[y] = 0;
        for (x = 0; x < 16; x++)
            next[y] |= bit(x, y) << x;
    }
    for (y = 0; y < 16; y++)
        rows[y] = next[y];
}
