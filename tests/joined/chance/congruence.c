static unsigned seed;

static void step(void)
{
    seed = seed * 25173 + 13849;
}

void set_congruence(unsigned to)
{
    seed = to;
}

unsigned congruence(void)
{
    step();
    return seed >> 4;
}
