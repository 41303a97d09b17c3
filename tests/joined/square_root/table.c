/* A table of roots, and a line between its points; x is scaled by fours until it is at least 4000h. */
static unsigned start[13] = {128, 136, 143, 150, 157, 163, 169, 175, 181, 187, 192, 197, 202};
static unsigned more[4] = {207, 212, 217, 222};

static unsigned point(unsigned i)
{
    if (i < 13)
        return start[i];
    return i < 17 ? more[i - 13] : 222 + (i - 16) * 4;
}

unsigned root_table(unsigned x)
{
    unsigned shift, i, a, part;

    if (!x)
        return 0;
    for (shift = 0; x < 0x4000; shift++)
        x <<= 2;
    i = (x - 0x4000) >> 11;
    part = x & 0x7ff;
    a = point(i);
    a += ((point(i + 1) - a) * (part >> 4)) >> 7;
    return a >> shift;
}
