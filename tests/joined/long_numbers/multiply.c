static unsigned carry;

/* the low word of a product of two words; the high one is added to what is carried */
static unsigned word(unsigned a, unsigned b)
{
    unsigned low, middle, high;

    low = (a & 255) * (b & 255);
    high = (a >> 8) * (b >> 8);
    middle = (a >> 8) * (b & 255);
    low += middle << 8;
    high += (middle >> 8) + (low < (middle << 8 & 0xffff));
    middle = (a & 255) * (b >> 8);
    low += middle << 8;
    high += (middle >> 8) + (low < (middle << 8 & 0xffff));
    low += carry;
    carry = high + (low < carry);
    return low;
}

unsigned multiply(unsigned *a, unsigned by)
{
    int i;

    carry = 0;
    for (i = 0; i < 4; i++)
        a[i] = word(a[i], by);
    return carry;
}
