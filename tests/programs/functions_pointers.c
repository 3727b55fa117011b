/* Functions as values: in tables, as arguments, as results and in records. */
int printf(const char *, ...);

typedef int binary(int, int);

static int sum(int a, int b) { return a + b; }
static int difference(int a, int b) { return a - b; }
static int product(int a, int b) { return a * b; }
static int greater(int a, int b) { return a > b ? a : b; }

static const struct {
    const char *name;
    binary *of;
    int neutral;
} table[] = { { "sum", sum, 0 }, { "product", &product, 1 }, { "greater", greater, -1000 } };

static int fold(binary *f, int start, const int *list, int count)
{
    while (count-- > 0)
        start = f(start, *list++);
    return start;
}

static binary *choose(char mark)
{
    switch (mark) {
    case '+': return sum;
    case '-': return difference;
    case '*': return product;
    }
    return 0;
}

static int (*twice(int (*f)(int)))(int) { return f; }
static int increased(int n) { return n + 1; }

static void each(int *list, int count, int (*f)(int))
{
    int i;
    for (i = 0; i < count; i++)
        list[i] = (*f)(list[i]);
}

static int square(int n) { return n * n; }

int main(void)
{
    int list[] = { 3, -1, 4, 1, -5, 9 };
    const char *marks = "+-*/";
    unsigned i;
    for (i = 0; i < sizeof table / sizeof *table; i++)
        printf("%s: %d\n", table[i].name, fold(table[i].of, table[i].neutral, list, 6));
    for (; *marks; marks++) {
        binary *f = choose(*marks);
        if (f)
            printf("12 %c 5 = %d\n", *marks, f(12, 5));
        else
            printf("no %c\n", *marks);
    }
    each(list, 6, square);
    each(list, 6, twice(increased));
    printf("%d %d\n", fold(sum, 0, list, 6), choose('-') == difference && choose('+') != difference);
    return fold(greater, 0, list, 6);
}
