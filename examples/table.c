/* A sine by table and interpolation. Port 0 gives angles, 65536 to the turn;
   at port 1 goes the sine, from -16384 to 16384. */

int quarter[17] = {
    0, 1606, 3196, 4756, 6270, 7723, 9102, 10394, 11585,
    12665, 13623, 14449, 15137, 15679, 16069, 16305, 16384
};

/* the sine of an angle in the first quarter, from 0 to 16384 */
int rise(unsigned angle)
{
    int *p;
    int part;

    p = quarter + (angle >> 10);
    part = (angle >> 6) & 15;             /* sixteenths of a step */
    if (part == 0)
        return *p;
    return p[0] + ((p[1] - p[0]) * part + 8) / 16;
}

int sine(unsigned angle)
{
    unsigned within = angle & 0x3fff;

    switch (angle >> 14) {
    case 0:
        return rise(within);
    case 1:
        return rise(0x4000 - within);
    case 2:
        return -rise(within);
    default:
        return -rise(0x4000 - within);
    }
}

int main(void)
{
    for (;;)
        __out(1, sine(__in(0)));
}
