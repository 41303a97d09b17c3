extern unsigned poly;
extern int fill_table(void);
unsigned entry(unsigned at);

static unsigned check;
static int ready;

static void byte(unsigned data)
{
    check = check << 8 ^ entry(check >> 8 ^ data);
}

unsigned check_bytes(unsigned *frame, int length)
{
    int i;

    if (!ready)
        ready = fill_table();
    check = 0xffff;
    for (i = 0; i < length; i++)
        byte(frame[i] & 0xff);
    return check;
}
