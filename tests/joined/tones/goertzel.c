/* The power of one tone in 32 samples, with coefficients in 64ths. Nothing here is above 32767 for samples of at most 7. */
extern int coefficients[4];
static int first, second;

static void step(int x, int by)
{
    int next;

    next = x + ((first >> 1) * by >> 5) - second;
    second = first;
    first = next;
}

int power(int *samples, int tone)
{
    int i, by, a, b;

    by = coefficients[tone];
    first = 0;
    second = 0;
    for (i = 0; i < 32; i++)
        step(samples[i], by);
    a = first >> 2;
    b = second >> 2;
    return a * a + b * b - (a * by >> 6) * b;
}
