unsigned rows[16];

static int bit(int x)
{
    return x & 15;
}

void set(int x, int y)
{
    rows[bit(y)] |= 1 << bit(x);
}

unsigned row(int y)
{
    return rows[bit(y)];
}

int cell(int x, int y)
{
    return rows[bit(y)] >> bit(x) & 1;
}
