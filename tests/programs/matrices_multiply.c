/* Matrices of numbers: products, powers and a trace. */
int printf(const char *, ...);

enum { N = 4 };

typedef struct {
    long at[N][N];
} matrix;

static const matrix unit = { { { 1 }, { 0, 1 }, { 0, 0, 1 }, { 0, 0, 0, 1 } } };

static matrix product(const matrix *a, const matrix *b)
{
    matrix c;
    int i, j, k;
    for (i = 0; i < N; i++)
        for (j = 0; j < N; j++) {
            c.at[i][j] = 0;
            for (k = 0; k < N; k++)
                c.at[i][j] += a->at[i][k] * b->at[k][j];
        }
    return c;
}

static matrix power(matrix base, unsigned n)
{
    matrix result = unit;
    while (n) {
        if (n & 1)
            result = product(&result, &base);
        base = product(&base, &base);
        n >>= 1;
    }
    return result;
}

static void show(const char *name, matrix m)
{
    int i, j;
    printf("%s\n", name);
    for (i = 0; i < N; i++)
        for (j = 0; j < N; j++)
            printf("%ld%c", m.at[i][j], j + 1 < N ? ' ' : '\n');
}

int main(void)
{
    matrix steps = { .at = { [0] = { [1] = 1, [2] = 1 }, [1] = { [3] = 1 }, [2] = { 0, 1, 0, 1 }, [3] = { 1, 0, -1, 2 } } };
    matrix all = power(steps, 13);
    long trace = 0;
    int i;
    show("one step", steps);
    show("13 steps", all);
    for (i = 0; i < N; i++)
        trace += all.at[i][i];
    printf("trace %ld\n", trace);
    return (unsigned char)trace;
}
