/* Bits are scrambled, and then turn the phase of the carrier. */

extern int sine[16];

static unsigned line;           /* the bits that were sent, the last one lowest */
static int phase = 1;           /* of the carrier, in sixteenths of a turn */

static int scrambled(int bit)
{
    bit ^= (line >> 13 ^ line >> 14) & 1;
    line = line << 1 | bit;
    return bit;
}

void send(int bits)
{
    int quarters;

    quarters = scrambled(bits >> 1) << 1;
    quarters |= scrambled(bits & 1);
    phase = (phase + 4 * quarters) & 15;
}

int sample(int k)
{
    return sine[(phase + 2 * k) & 15];
}
