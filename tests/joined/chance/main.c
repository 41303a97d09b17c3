extern void set_congruence(unsigned to), set_register(unsigned to), enter(unsigned word);
unsigned congruence(void), shifted(void), unequal(void);
extern unsigned bins[16];
unsigned count;
static unsigned seed = 1;

int main(void)
{
    int i;

    for (;;) {
        seed ^= __in(0);
        set_congruence(seed);
        set_register(seed);
        for (i = 0; i < 96; i++)
            enter(congruence() + (i & 1 ? shifted() : 0u));
        __out(1, unequal());
        __out(2, count);
        for (i = 0; i < 16; i++) {
            __out(3, bins[i]);
            bins[i] >>= 1;
        }
        count >>= 1;
    }
}
