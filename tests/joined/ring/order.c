extern int samples[8];
extern int kept;

/* the index of the least sample, or of the greatest one */
static int at(int greatest)
{
    int i, best;

    best = 0;
    for (i = 1; i < kept; i++)
        if (greatest ? samples[i] > samples[best] : samples[i] < samples[best])
            best = i;
    return best;
}

int least(void)
{
    return samples[at(0)];
}

int spread(void)
{
    return (samples[at(1)] >> 1) - (samples[at(0)] >> 1);
}
