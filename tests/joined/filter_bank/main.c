int low(int x);
int high(int x);
extern int band(int x);

int main(void)
{
    int x;

    for (;;) {
        x = __in(0);
        __out(1, low(x));
        __out(2, high(x));
        __out(3, band(x));
    }
}
