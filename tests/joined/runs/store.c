unsigned store[32];
int stored;

static unsigned run(int length, int byte)
{
    return 0x8000 | length << 8 | byte;
}

int put_run(int length, int byte)
{
    if (stored == 31)
        return 0;
    store[stored++] = run(length, byte);
    return 1;
}
