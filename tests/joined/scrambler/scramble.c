extern unsigned masks[4];
extern unsigned parity(unsigned word);

static unsigned state;
static unsigned mask;

void set_sender(int kind)
{
    state = 0;
    mask = masks[kind & 3];
}

int scramble(int bit)
{
    bit = (bit ^ parity(state & mask)) & 1;
    state = state << 1 | bit;
    return bit;
}
