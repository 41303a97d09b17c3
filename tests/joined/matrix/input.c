extern int left[9], right[9];
static int at;

static int next(void)
{
    at++;
    return (at & 1 ? __in(1) : __in(0)) % 50;
}

void fill(void)
{
    int i;

    for (i = 0; i < 9; i++) {
        left[i] = next();
        right[i] = next();
    }
}
