static unsigned carry;

static unsigned word(unsigned a, unsigned b)
{
    unsigned sum;

    sum = a + b;
    if (carry) {
        carry = sum + 1 <= a;
        return sum + 1;
    }
    carry = sum < a;
    return sum;
}

unsigned add(unsigned *to, unsigned *from)
{
    int i;

    carry = 0;
    for (i = 0; i < 4; i++)
        to[i] = word(to[i], from[i]);
    return carry;
}
