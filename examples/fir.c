/* A low-pass filter of eight taps. Samples come in at port 0 and are cut to
   -256 to 255; the filtered ones go out at port 1. */

int taps[8] = {1, 4, 10, 17, 17, 10, 4, 1};   /* their sum is 64 */
int line[8];                                  /* the last eight samples */
int newest;                                   /* where the next one goes */

int clamp(int x, int least, int most)
{
    if (x < least)
        return least;
    if (x > most)
        return most;
    return x;
}

int filter(int sample)
{
    int sum, i, at;

    line[newest] = sample;
    at = newest;
    newest = (newest + 1) & 7;

    sum = 32;                                 /* rounds the quotient */
    for (i = 0; i < 8; i++) {
        sum += taps[i] * line[at];
        at = (at - 1) & 7;
    }
    return sum >> 6;
}

int main(void)
{
    for (;;)
        __out(1, filter(clamp(__in(0), -256, 255)));
}
