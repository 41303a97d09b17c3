int produce(int words);
unsigned consume(int most);
extern int lost;
static unsigned sum;

int main(void)
{
    int i;

    for (i = 0; i < 12; i++) {
        __out(2, produce(i % 5 + 1));
        sum = consume(i % 4);
        __out(3, sum);
    }
    __out(4, lost);
    __out(3, consume(100));
    return sum;
}
