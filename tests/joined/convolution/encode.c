static int state;
extern int pair(int state, int bit);

int encode(int bit)
{
    int out;

    out = pair(state, bit);
    state = (state << 1 | bit) & 3;
    return out;
}

void reset(void)
{
    state = 0;
}
