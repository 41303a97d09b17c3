extern int heat(int degrees);
int pump(int degrees, int level);
unsigned heater_turns(void);
unsigned pump_turns(void);
extern int alarm_limits[2];

/* The controller's own states. */
static int on = 1;
static int faults;

static int check(int degrees)
{
    if (degrees < alarm_limits[0] || degrees > alarm_limits[1])
        faults++;
    else
        faults = 0;
    if (faults >= 2)
        on = 0;
    return on;
}

int main(void)
{
    int degrees, level;

    do {
        degrees = __in(0);
        level = __in(1);
        __out(2, heat(degrees));
        __out(3, pump(degrees, level));
    } while (check(degrees));
    __out(4, heater_turns());
    __out(4, pump_turns());
    return degrees;
}
