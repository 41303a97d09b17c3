int encode(int bit);
extern void reset(void), start(void), receive(int got);
unsigned decided(int *cost);

/* the bits of a word with errors at the places of another one */
static void send(unsigned word, unsigned errors)
{
    int i, out;

    for (i = 15; i >= 0; i--) {
        out = encode(word >> i & 1);
        __out(1, out);
        if (errors >> i & 1)
            out ^= i & 1 ? 2 : 1;
        receive(out);
    }
}

int main(void)
{
    unsigned word, errors;
    int cost;

    for (;;) {
        word = __in(0);
        errors = __in(1);
        reset();
        start();
        send(word, errors);
        __out(2, decided(&cost) ^ word);
        __out(3, cost);
    }
}
