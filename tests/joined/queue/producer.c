int put(int word);

static unsigned count;

/* the next word of the input, changed by how many there were before */
static int one(void)
{
    return __in(0) ^ count++;
}

int produce(int words)
{
    int put_in;

    put_in = 0;
    while (words-- > 0)
        put_in += put(one());
    return put_in;
}
