/* Frames in a stream of bytes: 126, a length from 1 to 8, so many bytes, and
   their sum modulo 256. A good frame goes out at port 1, the length first; at
   port 2 goes what was wrong with a bad one, 1 for the length and 2 for the
   sum. Port 0 gives the stream. */

int state;              /* 0 for waiting, 1 for length, 2 for data, 3 for sum */
int length, filled, sum;
int data[8];

void put_frame(void)
{
    int *p;

    __out(1, length);
    for (p = data; p < data + length; p++)
        __out(1, *p);
}

void take(int byte)
{
    switch (state) {
    case 0:
        if (byte == 126)
            state = 1;
        break;
    case 1:
        if (byte < 1 || byte > 8) {
            __out(2, 1);
            state = 0;
            break;
        }
        length = byte;
        filled = sum = 0;
        state = 2;
        break;
    case 2:
        data[filled++] = byte;
        sum = (sum + byte) & 255;
        if (filled == length)
            state = 3;
        break;
    case 3:
        if (byte == sum)
            put_frame();
        else
            __out(2, 2);
        state = 0;
    }
}

int main(void)
{
    for (;;)
        take(__in(0) & 255);
}
