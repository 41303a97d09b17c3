/* The heater is on between two limits, and counts how often it was switched. */
extern int low_limit, high_limit;

static int on;
static unsigned count;

static void turn(int wanted)
{
    if (on != wanted) {
        on = wanted;
        count++;
    }
}

int heat(int degrees)
{
    if (degrees < low_limit)
        turn(1);
    else if (degrees > high_limit)
        turn(0);
    return on;
}

unsigned heater_turns(void)
{
    return count;
}
