static int left;
static int last;

static void run(int word)
{
    left = word >> 8 & 127;
    last = word & 255;
}

/* the next byte of a coded list, or -1 at its end */
int decode(unsigned *words, int *at)
{
    while (left == 0) {
        if (words[*at] == 0)
            return -1;
        run(words[(*at)++]);
    }
    left--;
    return last;
}
