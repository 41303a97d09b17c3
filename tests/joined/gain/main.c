int attack = 1, decay = 3;
int least = 1, most = 127, wanted = 1024;
extern int detect(int x);
extern int gain(int detected);
int saturate(int high, unsigned low);
static int level;

/* x by a gain of seven bits: the high word and the low word of the product */
static int scaled(int x, int by)
{
    int high;
    unsigned low;

    high = (x >> 8) * by;
    low = (x & 255) * by;
    high += low >> 8;
    low &= 255;
    return saturate(high, low);
}

int main(void)
{
    int x;

    for (level = 16;;) {
        x = scaled(__in(0), level);
        level = gain(detect(x));
        __out(1, x);
        __out(2, level);
    }
}
