/* A scrambler for a modem, and its inverse: each bit that goes out is the bit
   that comes in, with those that went out 6 and 7 bits before. Words come in
   at port 0, highest bit first. The scrambled ones go out at port 1 and, when
   they were descrambled, at port 2; where they differ the program returns 1. */

unsigned sent;          /* the last bits sent, the newest one lowest */
unsigned received;      /* and received */

unsigned feedback(unsigned bits)
{
    return ((bits >> 5) ^ (bits >> 6)) & 1;
}

unsigned scramble(unsigned word)
{
    unsigned mask, bit, result = 0;

    for (mask = 0x8000; mask; mask >>= 1) {
        bit = ((word & mask) != 0) ^ feedback(sent);
        sent = sent << 1 | bit;
        result = result << 1 | bit;
    }
    return result;
}

unsigned descramble(unsigned word)
{
    unsigned mask, bit, result = 0;

    for (mask = 0x8000; mask; mask >>= 1) {
        bit = (word & mask) != 0;
        result = result << 1 | (bit ^ feedback(received));
        received = received << 1 | bit;
    }
    return result;
}

int main(void)
{
    unsigned word, line, back;

    for (;;) {
        word = __in(0);
        line = scramble(word);
        __out(1, line);
        back = descramble(line);
        __out(2, back);
        if (back != word)
            return 1;
    }
}
