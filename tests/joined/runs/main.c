int encode(int byte);
int finish(void);
extern int decode(unsigned *words, int *at);
extern unsigned store[32];
extern int stored;

static int last, left;

int main(void)
{
    int at, byte, room;

    room = 1;
    while (room && (byte = __in(0)) >= 0)
        room = encode(byte & 255);
    __out(1, finish());
    __out(1, stored);
    for (at = 0; at < stored; at++)
        __out(2, store[at]);
    at = 0;
    while ((last = decode(store, &at)) >= 0) {
        left++;
        __out(3, last);
    }
    return left;
}
