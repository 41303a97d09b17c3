int errors;
static int state;

static int digit(int c)
{
    return c >= '0' && c <= '9';
}

/* reads up to a semicolon; 0 at a full stop */
int next_word(int *letter, int *value)
{
    int c, minus;

    state = 0;
    minus = 0;
    *letter = 0;
    *value = 0;
    for (;;) {
        c = __in(0);
        if (c == '.')
            return 0;
        switch (state) {
        case 0:
            if (c == ' ' || c == '\n')
                break;
            *letter = c;
            state = c >= 'a' && c <= 'z' ? 1 : 3;
            break;
        case 1:
            if (c == '-') {
                minus = 1;
                state = 2;
                break;
            }
        case 2:
            if (c == ';')
                state = 4;
            else if (digit(c) && *value < 1000)
                *value = *value * 10 + c - '0';
            else
                state = 3;
            break;
        default:
            if (c == ';')
                state = 5;
        }
        if (state == 5) {
            errors++;
            state = 0;
            minus = 0;
            *value = 0;
        }
        if (state == 4) {
            if (minus)
                *value = -*value;
            return 1;
        }
    }
}
