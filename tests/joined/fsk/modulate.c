extern int sine[16];
static unsigned count;

static unsigned rate(int bit)
{
    return bit ? 0x4000 : 0x2000;
}

int tone(int bit)
{
    count += rate(bit);
    return sine[count >> 12];
}
