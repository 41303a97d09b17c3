void keep(int x);
int oldest(void);
extern int mean(void);
extern int least(void);
int spread(void);

int main(void)
{
    int i;

    for (i = 0;; i++) {
        keep(__in(0));
        __out(1, oldest());
        __out(2, mean());
        if (i & 1)
            __out(3, least());
        else
            __out(4, spread());
    }
}
