static int outs[8] = {0, 3, 2, 1, 3, 0, 1, 2};

int pair(int state, int bit)
{
    return outs[(state << 1 | bit) & 7];
}
