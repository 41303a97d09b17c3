unsigned bins[16];
static unsigned step;
extern unsigned count;

void enter(unsigned word)
{
    step = word >> 8 & 15;
    bins[step]++;
    count++;
}

/* four times the squares of the distances from the mean */
unsigned unequal(void)
{
    int i, far;
    unsigned sum;

    sum = 0;
    for (i = 0; i < 16; i++) {
        far = (int)bins[i] - (int)(count >> 4);
        sum += 4 * far * far;
    }
    return sum;
}
