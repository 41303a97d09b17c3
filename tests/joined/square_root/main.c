unsigned root_bits(unsigned x);
unsigned root_steps(unsigned x);
extern unsigned root_table(unsigned x);
extern int most_steps;

static unsigned distance(unsigned a, unsigned b)
{
    return a > b ? a - b : b - a;
}

int main(void)
{
    unsigned x, r, worst;

    worst = 0;
    for (;;) {
        x = __in(0);
        r = root_bits(x);
        __out(0, r);
        __out(1, root_steps(x) - r);
        if (distance(root_table(x), r) > worst)
            worst = distance(root_table(x), r);
        __out(2, worst);
        __out(3, most_steps);
    }
}
