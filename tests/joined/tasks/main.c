int pressed;
extern void blink(unsigned now), keys(unsigned now), lift(unsigned now), watch(unsigned now);
static unsigned now = 65530u;

static void step(void)
{
    switch (now & 3) {
    case 0: lift(now);
    case 1: blink(now - 65530u); keys(now); break;
    case 2: keys(now); blink(now - 65530u); break;
    default: blink(now - 65530u); watch(now);
    }
}

int main(void)
{
    for (;; now++)
        step();
}
