extern unsigned add(unsigned *to, unsigned *from);
extern unsigned multiply(unsigned *a, unsigned by);
extern unsigned divide(unsigned *a, unsigned by);

static unsigned number[4] = {1}, word[4];
static int digits[20];

static void decimal(void)
{
    int count;

    count = 0;
    do
        digits[count++] = divide(word, 10);
    while (word[0] || word[1] || word[2] || word[3]);
    while (count > 0)
        __out(2, digits[--count]);
}

static void copy(unsigned *to, unsigned *from)
{
    int i;

    for (i = 0; i < 4; i++)
        to[i] = from[i];
}

int main(void)
{
    unsigned over;

    for (;;) {
        over = multiply(number, __in(0));
        word[0] = __in(1);
        word[1] = word[0] >> 8;
        word[2] = 0;
        word[3] = 0;
        over += add(number, word);
        __out(1, over);
        copy(word, number);
        decimal();
    }
}
