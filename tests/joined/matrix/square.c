static int at(int row, int column)
{
    return row * 3 + column;
}

static void swap(int *a, int *b)
{
    int c;

    c = *a;
    *a = *b;
    *b = c;
}

void transpose(int *a)
{
    int i, j;

    for (i = 1; i < 3; i++)
        for (j = 0; j < i; j++)
            swap(&a[at(i, j)], &a[at(j, i)]);
}

int trace(int a[9])
{
    return a[at(0, 0)] + a[at(1, 1)] + a[at(2, 2)];
}

static int minor(int *a, int x, int y)
{
    return a[3 + x] * a[6 + y] - a[3 + y] * a[6 + x];
}

int determinant(int *a)
{
    return a[0] * minor(a, 1, 2) - a[1] * minor(a, 0, 2) + a[2] * minor(a, 0, 1);
}
