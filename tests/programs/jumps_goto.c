/* Jumps: into a loop, out of several, forwards to clean up, and backwards. */
int printf(const char *, ...);
int putchar(int);
void *malloc(unsigned long);
void free(void *);

static int into(int n)
{
    int turns = 0;
    if (n & 1)
        goto middle;
    while (n > 0) {
        putchar('a');
    middle:
        putchar('b');
        n -= 2;
        turns++;
    }
    putchar('\n');
    return turns;
}

static int find(int sum)
{
    int i, j, k;
    for (i = 1; i < 20; i++)
        for (j = i; j < 20; j++)
            for (k = j; k < 20; k++)
                if (i + j + k == sum && i * i + j * j == k * k)
                    goto found;
    return 0;
found:
    printf("%d %d %d\n", i, j, k);
    return 1;
}

static int made(int limit)
{
    int result = 0;
    char *a, *b;
    a = malloc(10);
    if (!a)
        goto no_a;
    b = malloc(20);
    if (!b)
        goto no_b;
    if (limit < 3)
        goto done;
    result = 1;
done:
    free(b);
no_b:
    free(a);
no_a:
    return result;
}

static int collatz(int n)
{
    int steps = 0;
again:
    if (n == 1)
        goto end;
    steps++;
    if (n % 2)
        goto odd;
    n /= 2;
    goto again;
odd:
    n = 3 * n + 1;
    goto again;
end:
    return steps;
}

int main(void)
{
    int a = into(4), b = into(5);
    printf("%d %d\n", a, b);
    printf("%d %d\n", find(12), find(13));
    printf("%d %d\n", made(2), made(3));
    printf("%d\n", collatz(27));
    return collatz(97);
}
