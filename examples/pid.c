/* A controller with a proportional, an integral and a differential part. Port 0
   has the number of steps, and then for each one the wanted value; port 1 has
   the measured values. The drive goes out at port 2, from -1000 to 1000, and
   where it was cut the integral stands still and goes out at port 3. */

int integral;
int last_error;

int bounded(int value, int bound)
{
    return value > bound ? bound : value < -bound ? -bound : value;
}

int control(int wanted, int measured)
{
    int error, change, drive, limited;

    error = bounded(wanted - measured, 400);
    change = error - last_error;
    last_error = error;

    drive = 3 * error + integral / 8 + 5 * change;
    limited = bounded(drive, 1000);
    if (limited == drive)
        integral = bounded(integral + error, 6000);
    else
        __out(3, integral);
    return limited;
}

int main(void)
{
    int steps, wanted;

    for (steps = __in(0); steps > 0; steps--) {
        wanted = bounded(__in(0), 2000);
        __out(2, control(wanted, bounded(__in(1), 2000)));
    }
    return integral;
}
