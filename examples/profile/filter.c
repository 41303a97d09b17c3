/* A low-pass filter of sixteen taps that makes its taps when it starts: those
   of a triangle, scaled so that they are 256 together. Samples come in at port
   0, and the upper eight bits of each are used; the filtered ones go out at
   port 1. The taps are made once, but each sample goes through all of them: to
   `build` each block of `main` counts alike, and to `pbuild` the last loop most. */

int taps[16];
int line[16];                   /* the last samples, a ring */

int main(void)
{
    int sum, left, i, at, tap;

    /* the triangle: 1 to 8, and back */
    sum = 0;
    for (i = 0; i < 16; i++) {
        tap = i < 8 ? i + 1 : 16 - i;
        taps[i] = tap;
        sum += tap;
    }

    /* so many of 256 for each tap as its part of the triangle is */
    left = 256;
    for (i = 0; i < 16; i++) {
        tap = taps[i] * 256 / sum;
        taps[i] = tap;
        left -= tap;
    }

    /* what the quotients left, for the taps from the fifth on */
    for (i = 4; left > 0; i++) {
        taps[i & 15]++;
        left--;
    }

    at = 0;                     /* where the next sample goes */
    for (;;) {
        line[at] = __in(0) >> 8;
        sum = 128;              /* rounds the quotient */
        for (i = 0; i < 16; i++) {
            sum += taps[i] * line[at];
            at = (at + 1) & 15;
        }
        __out(1, sum >> 8);
        at = (at - 1) & 15;     /* over the oldest sample */
    }
}
