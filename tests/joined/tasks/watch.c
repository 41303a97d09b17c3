extern int pressed;
static int state;
static unsigned due[2] = {65535u, 11};

void watch(unsigned now)
{
    if (now == due[state]) {
        __out(5, pressed);
        due[state] += 16;
        state ^= 1;
    }
}
