/* Commands come in at port 0, a character at a time: a letter, a decimal number with or without a minus, and a semicolon. */
extern int next_word(int *letter, int *value);
void execute(int letter, int value);
extern int errors;

int main(void)
{
    int letter, value;

    while (next_word(&letter, &value))
        execute(letter, value);
    __out(15, errors);
    return errors;
}
