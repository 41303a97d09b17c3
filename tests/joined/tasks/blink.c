static int state;
static unsigned due = 3;

static int step(void)
{
    state = !state;
    return state ? 2 : 5;
}

void blink(unsigned now)
{
    if (now == due) {
        due += step();
        __out(1, state);
    }
}
