int get(int *word);
extern int waiting(void);

static unsigned count;
static unsigned sum;

static int one(void)
{
    int word;

    if (!get(&word))
        return 0;
    sum += word * (++count);
    __out(1, word);
    return 1;
}

unsigned consume(int most)
{
    while (most-- > 0 && waiting() > 1 && one())
        ;
    return sum;
}
