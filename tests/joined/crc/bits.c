/* The check of a frame bit by bit, as another file computes it by a table. */
extern unsigned poly;
static unsigned check;

static void byte(unsigned data)
{
    int i;

    check ^= data << 8;
    for (i = 0; i < 8; i++)
        check = check & 0x8000 ? check << 1 ^ poly : check << 1;
}

unsigned check_bits(unsigned *frame, int length)
{
    check = 0xffff;
    while (length-- > 0)
        byte(*frame++ & 0xff);
    return check;
}
