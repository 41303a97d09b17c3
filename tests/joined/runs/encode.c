static int left;
static int last = -1;
extern int put_run(int length, int byte);

static int run(void)
{
    int length;

    length = left;
    left = 0;
    return length > 0 ? put_run(length, last) : 1;
}

int encode(int byte)
{
    int room;

    room = 1;
    if (byte != last || left == 127)
        room = run();
    last = byte;
    left++;
    return room;
}

int finish(void)
{
    return run();
}
