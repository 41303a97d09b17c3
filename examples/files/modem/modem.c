/* A part of a modem, in three files: this one, transmit.c and receive.c. Words
   come in at port 0. Two bits of a word at a time, the highest first, turn the
   phase of a carrier, whose samples go out at port 1 and are heard at once. The
   word that was heard goes out at port 2. One source is made of the files by
   `c25cc join OUT modem.c transmit.c receive.c`; each file but this one has a
   static `line` and a static `phase` of its own, and both have the sine of this
   one. */

int sine[16] = {0, 23, 42, 55, 60, 55, 42, 23, 0, -23, -42, -55, -60, -55, -42, -23};

extern void send(int bits);     /* the next two bits for the line */
extern int sample(int k);       /* and sample k of their carrier */
extern void hear(int x, int k); /* what the line has for sample k */
extern int received(void);      /* the two bits that were heard */

int main(void)
{
    unsigned word, heard;
    int i, k, x;

    for (;;) {
        word = __in(0);
        heard = 0;
        for (i = 14; i >= 0; i -= 2) {
            send(word >> i & 3);
            for (k = 0; k < 8; k++) {
                x = sample(k);
                __out(1, x);
                hear(x, k);
            }
            heard = heard << 2 | received();
        }
        __out(2, heard);
    }
}
