/* A queue of six words. What finds no room is lost. */
static int words[6];
static int first, count;
int lost;

int waiting(void)
{
    return count;
}

int put(int word)
{
    int at;

    if (count == sizeof words / sizeof words[0]) {
        lost++;
        return 0;
    }
    at = first + count++;
    words[at >= 6 ? at - 6 : at] = word;
    return 1;
}

int get(int *word)
{
    if (!count)
        return 0;
    *word = words[first];
    first = first == 5 ? 0 : first + 1;
    count--;
    return 1;
}
