/* The pump's states: it rests, starts for three turns, runs, and rests again when the tank is full. */
extern int low_limit;

static int state;
static int on;
static unsigned count;

static void turn(int next)
{
    state = next;
    on = 0;
    count++;
}

int pump(int degrees, int level)
{
    switch (state) {
    case 0:
        if (level < 10 && degrees > low_limit / 2)
            turn(1);
        break;
    case 1:
        if (++on == 3)
            turn(2);
        break;
    case 2:
        on++;
        if (level >= 30)
            turn(0);
        else if (on > 8)
            turn(3);
        break;
    default:
        if (degrees < low_limit)
            turn(0);
    }
    return state * 16 + on;
}

unsigned pump_turns(void)
{
    return count;
}
