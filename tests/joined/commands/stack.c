extern int errors;
static int words[8];
static int state;

int depth(void)
{
    return state;
}

void push(int word)
{
    if (state < 8)
        words[state++] = word;
    else
        errors++;
}

int pop(void)
{
    if (state > 0)
        return words[--state];
    errors++;
    return 0;
}
