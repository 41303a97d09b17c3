/* Words of port 0 are scrambled bit by bit, put as words, descrambled, and put again. The mask changes after every third word. */
void set_sender(int kind);
void set_receiver(int kind);
int scramble(int bit);
int descramble(int bit);

static unsigned sent, received;

static void word(unsigned data)
{
    int i, bit;

    sent = 0;
    received = 0;
    for (i = 15; i >= 0; i--) {
        bit = scramble(data >> i & 1);
        sent = sent << 1 | bit;
        received = received << 1 | descramble(bit);
    }
}

int main(void)
{
    unsigned count;

    for (count = 0;; count++) {
        if (count % 3 == 0) {
            set_sender(count / 3);
            set_receiver(count / 3);
        }
        word(__in(0));
        __out(0, sent);
        __out(1, received);
    }
}
