unsigned check_bits(unsigned *frame, int length);
unsigned check_bytes(unsigned *frame, int length);
unsigned poly = 0x1021;

static unsigned frame[12];

/* reads a length and as many bytes; the frames end with the input */
static int frame_in(void)
{
    int i, length;

    length = __in(0) & 7;
    for (i = 0; i < length; i++)
        frame[i] = __in(0);
    return length;
}

int main(void)
{
    int length;
    unsigned bits;

    for (;;) {
        length = frame_in();
        bits = check_bits(frame, length);
        __out(1, bits);
        __out(2, check_bytes(frame, length));
        frame[length] = bits >> 8;
        frame[length + 1] = bits & 0xff;
        __out(3, check_bytes(frame, length + 2));
    }
}
