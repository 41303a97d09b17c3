/* The level of a signal, with a fast rise and a slow fall, and a gate with
   hysteresis on it. Samples come in at port 0. The level goes out at port 1;
   port 2 gets a 1 where the gate opens and a 0 where it shuts. */

int magnitude(int x)
{
    if (x == -32767 - 1)
        return 32767;               /* the least int has no negative */
    return x < 0 ? -x : x;
}

int follow(int level, int peak)
{
    if (peak > level)
        return level + ((peak - level) >> 1);
    return level - ((level - peak) >> 3);
}

int main(void)
{
    int level = 0, open = 0;

    for (;;) {
        level = follow(level, magnitude(__in(0)));
        __out(1, level);
        if (!open && level > 8000)
            __out(2, open = 1);
        else if (open && level < 4000)
            __out(2, open = 0);
    }
}
