/* Zero crossings in a bit's eight samples tell which tone it has. */
static int last = 1;
static int count;
static unsigned word;

static int crossed(int x)
{
    int was;

    was = last;
    if (x)
        last = x > 0 ? 1 : -1;
    return last != was;
}

void hear(int x)
{
    count += crossed(x);
}

void end_bit(void)
{
    word = word << 1 | (count >= 3);
    count = 0;
}

unsigned heard(void)
{
    return word;
}
