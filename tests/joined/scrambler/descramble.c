/* What the line has is descrambled by what it had before. */
extern unsigned masks[4];
unsigned parity(unsigned word);

static unsigned state;
static unsigned mask;

void set_receiver(int kind)
{
    state = 0;
    mask = masks[kind & 3];
}

int descramble(int bit)
{
    unsigned before;

    before = parity(state & mask);
    state = state << 1 | bit;
    return (bit ^ before) & 1;
}
