static unsigned carry;

/* a bit of a number of four words, shifted out at the top */
static unsigned bit(unsigned *a)
{
    int i;
    unsigned next;

    carry = 0;
    for (i = 0; i < 4; i++) {
        next = a[i] >> 15;
        a[i] = a[i] << 1 | carry;
        carry = next;
    }
    return carry;
}

/* a number by a word of at most 15 bits: the quotient in its place, and the remainder */
unsigned divide(unsigned *a, unsigned by)
{
    int i;
    unsigned rest;

    rest = 0;
    for (i = 0; i < 64; i++) {
        rest = rest << 1 | bit(a);
        if (rest >= by) {
            rest -= by;
            a[0] |= 1;
        }
    }
    return rest;
}
