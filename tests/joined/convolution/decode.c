/* A Viterbi decoder of sixteen bits over four states. */
extern int pair(int state, int bit);
static int costs[4], next_costs[4];
static unsigned paths[4], next_paths[4];

static int differ(int a, int b)
{
    a ^= b;
    return (a & 1) + (a >> 1 & 1);
}

void start(void)
{
    int i;

    for (i = 0; i < 4; i++) {
        costs[i] = i ? 1000 : 0;
        paths[i] = 0;
    }
}

static void reach(int from, int bit, int cost)
{
    int to;

    to = (from << 1 | bit) & 3;
    cost += costs[from];
    if (cost < next_costs[to]) {
        next_costs[to] = cost;
        next_paths[to] = paths[from] << 1 | bit;
    }
}

void receive(int got)
{
    int i;

    for (i = 0; i < 4; i++)
        next_costs[i] = 2000;
    for (i = 0; i < 8; i++)
        reach(i >> 1, i & 1, differ(got, pair(i >> 1, i & 1)));
    for (i = 0; i < 4; i++) {
        costs[i] = next_costs[i];
        paths[i] = next_paths[i];
    }
}

unsigned decided(int *cost)
{
    int i, best;

    best = 0;
    for (i = 1; i < 4; i++)
        if (costs[i] < costs[best])
            best = i;
    *cost = costs[best];
    return paths[best];
}
