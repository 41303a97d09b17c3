/* A ring buffer of six words between a fast and a slow side. A word of port 0
   above 0 says that so many words are to be taken from port 1; 0 lets one word
   out at port 2. What doesn't fit goes out at port 3; an empty buffer is told
   by a 1 at port 4. A word below 0 empties the buffer, and ends the program. */

int ring[6];
int *first = ring;      /* the oldest word */
int *next = ring;       /* where the next one goes */
int count;

int *behind(int *p)
{
    return ++p == ring + sizeof ring / sizeof ring[0] ? ring : p;
}

int put(int word)
{
    if (count == sizeof ring / sizeof ring[0])
        return 0;
    *next = word;
    next = behind(next);
    count++;
    return 1;
}

int get(int *word)
{
    if (count == 0)
        return 0;
    *word = *first;
    first = behind(first);
    count--;
    return 1;
}

int main(void)
{
    int wanted, word, lost = 0;

    while ((wanted = __in(0)) >= 0) {
        if (wanted == 0) {
            if (get(&word))
                __out(2, word);
            else
                __out(4, 1);
        }
        while (wanted-- > 0) {
            word = __in(1);
            if (!put(word)) {
                __out(3, word);
                lost++;
            }
        }
    }
    while (get(&word))
        __out(2, word);
    return lost;
}
