/* Determinants by elimination in whole numbers, each division without rest. */
int printf(const char *, ...);

static int determinant(int size, int m[][5], long *value)
{
    long before = 1, sign = 1;
    int k, i, j, row;
    for (k = 0; k < size - 1; k++) {
        for (row = k; row < size && !m[row][k]; row++)
            ;
        if (row == size) {
            *value = 0;
            return 0;
        }
        if (row != k) {
            for (j = 0; j < size; j++) {
                int kept = m[k][j];
                m[k][j] = m[row][j];
                m[row][j] = kept;
            }
            sign = -sign;
        }
        for (i = k + 1; i < size; i++)
            for (j = k + 1; j < size; j++)
                m[i][j] = (int)(((long)m[i][j] * m[k][k] - (long)m[i][k] * m[k][j]) / before);
        before = m[k][k];
    }
    *value = sign * m[size - 1][size - 1];
    return 1;
}

int main(void)
{
    int a[3][5] = { { 2, -1, 0 }, { -1, 2, -1 }, { 0, -1, 2 } };
    int b[5][5] = { { 0, 2, 1, 4, 3 }, { 1, 0, 2, 1, 5 }, { 7, 3, 0, 2, 1 }, { 2, 2, 9, 0, 1 }, { 1, 4, 4, 6, 0 } };
    int c[4][5] = { { 1, 2, 3, 4 }, { 2, 4, 6, 8 }, { 0, 1, 0, 1 }, { 5, 5, 5, 5 } };
    long d, sum = 0;
    int regular;
    regular = determinant(3, a, &d);
    printf("%d: %ld\n", regular, d), sum += d;
    regular = determinant(5, b, &d);
    printf("%d: %ld\n", regular, d), sum += d;
    regular = determinant(4, c, &d);
    printf("%d: %ld\n", regular, d), sum += d;
    return (int)(sum & 127);
}
