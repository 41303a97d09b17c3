extern void set(int x, int y), step(void);
extern unsigned row(int y);
unsigned living(void);
static unsigned rows;

int main(void)
{
    int y, turn;

    while ((rows = __in(0)) != 0xffff)
        set(rows >> 8, rows & 15);
    for (turn = 0; turn < 6; turn++) {
        for (y = 2; y < 9; y++)
            __out(1, row(y));
        __out(2, living());
        step();
    }
    return living();
}
