int left[9];
int right[9];
static int product[9], at;
void fill(void);
void multiply(int *out, int *a, int *b);
extern void transpose(int *a);
extern int trace(int a[9]);
int determinant(int *a);

/* the cells of a matrix, in a row each */
static void show(int *a)
{
    for (at = 0; at < 9; at += 3) {
        __out(1, a[at]);
        __out(2, a[at + 1]);
        __out(3, a[at + 2]);
    }
}

int main(void)
{
    int turn;

    for (turn = 0; turn < 3; turn++) {
        fill();
        multiply(product, left, right);
        show(product);
        __out(5, trace(product));
        transpose(left);
        show(left);
        multiply(product, left, left);
        __out(2, trace(product));
        for (at = 0; at < 9; at++)
            right[at] %= 10;
        __out(4, determinant(right));
    }
    return trace(left);
}
