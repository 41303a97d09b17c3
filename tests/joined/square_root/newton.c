/* Newton's steps from above, and how many were needed at most. */
int most_steps;
static int steps;

static unsigned start(unsigned x)
{
    unsigned r;

    r = 1;
    while (r < 256 && r * r < x)
        r <<= 1;
    return r;
}

unsigned root_steps(unsigned x)
{
    unsigned r, next;

    if (!x)
        return 0;
    next = start(x);
    steps = 0;
    do {
        r = next;
        next = (r + x / r) >> 1;
        steps++;
    } while (next < r);
    if (steps > most_steps)
        most_steps = steps;
    return r;
}
