/* The carrier is compared with a sine and a cosine. How the phase turned since
   the last two bits are the next ones, and these are unscrambled. */

extern int sine[16];

static unsigned line;           /* the bits that were received, the last one lowest */
static int phase;               /* of the last two bits, in quarters of a turn */
static int with_sine, with_cosine;

static int unscrambled(int bit)
{
    int before;

    before = (line >> 13 ^ line >> 14) & 1;
    line = line << 1 | bit;
    return bit ^ before;
}

static int quarter(void)
{
    if (with_cosine >= 0)
        return with_sine >= 0 ? 0 : 1;
    return with_sine >= 0 ? 3 : 2;
}

void hear(int x, int k)
{
    with_sine += x * sine[2 * k];
    with_cosine += x * sine[(2 * k + 4) & 15];
}

int received(void)
{
    int quarters, bits;

    quarters = (quarter() - phase) & 3;
    phase = quarter();
    with_sine = 0;
    with_cosine = 0;
    bits = unscrambled(quarters >> 1) << 1;
    bits |= unscrambled(quarters & 1);
    return bits;
}
