static unsigned seed = 1;

static void step(void)
{
    if (seed & 1)
        seed = seed >> 1 ^ 0xd008;
    else
        seed >>= 1;
}

void set_register(unsigned to)
{
    seed = to ? to : 1u;
}

unsigned shifted(void)
{
    int i;

    for (i = 0; i < 3; i++)
        step();
    return seed;
}
