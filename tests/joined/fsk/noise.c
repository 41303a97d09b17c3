static unsigned word = 0xace1;

static void step(void)
{
    word = word >> 1 ^ (-(word & 1) & 0xb400);
}

int noise(void)
{
    step();
    return (int)(word % 61) - 30;
}
