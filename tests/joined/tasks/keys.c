/* A key counts where it was down for three turns. */
extern int pressed;
static int state;

static int step(int down)
{
    state = down ? state + (state < 4) : 0;
    return state == 3;
}

void keys(unsigned now)
{
    if (step(__in(0) & 1)) {
        pressed++;
        __out(2, now);
    }
}
