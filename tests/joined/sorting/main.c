/* Sixteen words are sorted in three ways; the words, then how much each way moved. */
unsigned insertion(int *a, int length);
extern unsigned heap(int *a, int length), shell(int *a, int length);

static int words[16], a[16], b[16], c[16];
static unsigned count;

static int same(void)
{
    int i;

    for (i = 0; i < 16; i++)
        if (a[i] != b[i] || b[i] != c[i])
            return 0;
    return 1;
}

int main(void)
{
    int i;

    for (;;) {
        for (i = 0; i < 16; i++) {
            words[i] = __in(3);
            a[i] = words[i];
            b[i] = words[i];
            c[i] = words[i];
        }
        count = insertion(a, 16);
        __out(1, count);
        __out(1, heap(b, 16));
        __out(1, shell(c, 16));
        __out(2, same());
        for (i = 0; i < 16; i++)
            __out(3, b[i]);
    }
}
