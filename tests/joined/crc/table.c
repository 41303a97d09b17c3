extern unsigned poly;
static unsigned table[256];

static unsigned byte(unsigned at)
{
    int i;

    at <<= 8;
    for (i = 0; i < 8; i++)
        at = at << 1 ^ (at >> 15) * poly;
    return at;
}

int fill_table(void)
{
    unsigned i;

    for (i = 0; i < 256; i++)
        table[i] = byte(i);
    return 1;
}

unsigned entry(unsigned at)
{
    return table[at & 255];
}
