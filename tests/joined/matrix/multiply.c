static int cell(int *row, int *column)
{
    return row[0] * column[0] + row[1] * column[3] + row[2] * column[6];
}

void multiply(int *out, int *a, int *b)
{
    int i, j;

    for (i = 0; i < 9; i += 3)
        for (j = 0; j < 3; j++)
            out[i + j] = cell(a + i, b + j);
}
