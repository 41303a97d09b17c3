/* The last eight samples. */
int samples[8];
int kept;
static int at;

static int next(int i)
{
    return (i + 1) & 7;
}

void keep(int x)
{
    samples[at] = x;
    at = next(at);
    if (kept < 8)
        kept++;
}

int oldest(void)
{
    return kept < 8 ? samples[0] : samples[at];
}
