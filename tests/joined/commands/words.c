int depth(void);
int pop(void);
extern void push(int word);
extern int errors;

/* the letter whose command was the last */
static int state;

static void pair(int letter)
{
    int a, b;

    b = pop();
    a = pop();
    switch (letter) {
    case 'a': push(a + b); break;
    case 's': push(a - b); break;
    case 'd':
        if (b)
            push(a / b);
        else
            errors++;
        break;
    case 'x':
        push(b);
        push(a);
    }
}

void execute(int letter, int value)
{
    switch (letter) {
    case 'p': push(value); break;
    case 'a': case 's': case 'd': case 'x': pair(letter); break;
    case 'o':
        __out(0, value);
        __out(1, pop());
        break;
    case 'n': __out(14, depth()); break;
    case 'r': __out(13, state); break;
    default: errors++;
    }
    state = letter;
}
