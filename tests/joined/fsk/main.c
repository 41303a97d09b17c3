extern int tone(int bit);
void hear(int x);
void end_bit(void);
unsigned heard(void);
extern int noise(void);

/* one word, most significant bit first */
static void send(unsigned word)
{
    int i, k, x;

    for (i = 15; i >= 0; i--) {
        for (k = 0; k < 8; k++) {
            x = tone(word >> i & 1);
            if (i % 5 == 0)
                __out(1, x);
            hear(x + noise());
        }
        end_bit();
    }
}

int main(void)
{
    unsigned word;

    for (;;) {
        word = __in(0);
        send(word);
        __out(2, heard());
        __out(3, heard() ^ word);
    }
}
