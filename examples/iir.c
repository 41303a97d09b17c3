/* A band-pass filter of second order:

       y[n] = (24 x[n] - 24 x[n-2] + 96 y[n-1] - 48 y[n-2]) / 64

   Samples of eight bits come in at port 0. The filtered ones go out at port 1,
   and once some had to be cut, how many these are goes out at port 2. */

int x1, x2;             /* the last two samples */
int y1, y2;             /* and what came of them */
int cut;

int saturate(int y)
{
    if (y < -127) {
        cut++;
        y = -127;
    } else if (y > 127) {
        cut++;
        y = 127;
    }
    return y;
}

int resonate(int x)
{
    int sum;

    sum = 24 * (x - x2) + 96 * y1 - 48 * y2;
    x2 = x1;
    x1 = x;
    y2 = y1;
    y1 = saturate((sum + 32) >> 6);
    return y1;
}

int main(void)
{
    int x;

    for (;;) {
        x = __in(0) & 0xff;
        if (x & 0x80)
            x -= 256;               /* the sign of a byte */
        __out(1, resonate(x));
        if (cut)
            __out(2, cut);
    }
}
