extern int power(int *samples, int tone);
extern int wave(unsigned phase);
extern unsigned rates[4];
static int samples[32];
static unsigned first;

static int loudest(int *level)
{
    int tone, best, p;

    best = 0;
    *level = 0;
    for (tone = 0; tone < 4; tone++) {
        p = power(samples, tone);
        __out(3, p);
        if (p > *level) {
            *level = p;
            best = tone;
        }
    }
    return best;
}

int main(void)
{
    int i, level, tone;

    for (;;) {
        tone = __in(0) & 3;
        first = __in(1);
        for (i = 0; i < 32; i++) {
            samples[i] = wave(first);
            first += rates[tone];
        }
        __out(1, loudest(&level));
        __out(2, level);
    }
}
