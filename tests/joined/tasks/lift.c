extern int pressed;
static int state, due;

static void step(int by)
{
    state += by;
    __out(3, state);
}

void lift(unsigned now)
{
    if (due == state)
        due = pressed * 3 % 7;
    if (due != state)
        step(due > state ? 1 : -1);
    else if (now & 4)
        __out(4, due);
}
