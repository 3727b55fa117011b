/* Trees of expressions: made by hand, shown, evaluated and derived. */
void *malloc(unsigned long);
int printf(const char *, ...);
void exit(int);

enum kind { NUMBER, VARIABLE, SUM, PRODUCT };

typedef struct expr {
    enum kind kind;
    union {
        int number;
        struct {
            const struct expr *left, *right;
        } of;
    } is;
} expr;

static expr *fresh(enum kind kind)
{
    expr *e = malloc(sizeof *e);
    if (!e)
        exit(99);
    e->kind = kind;
    return e;
}

static const expr *number(int value)
{
    expr *e = fresh(NUMBER);
    e->is.number = value;
    return e;
}

static const expr *pair(enum kind kind, const expr *left, const expr *right)
{
    expr *e = fresh(kind);
    e->is.of.left = left;
    e->is.of.right = right;
    return e;
}

static void show(const expr *e)
{
    switch (e->kind) {
    case NUMBER:
        printf("%d", e->is.number);
        break;
    case VARIABLE:
        printf("x");
        break;
    default:
        printf("(");
        show(e->is.of.left);
        printf(e->kind == SUM ? " + " : " * ");
        show(e->is.of.right);
        printf(")");
    }
}

static int value(const expr *e, int x)
{
    if (e->kind == NUMBER)
        return e->is.number;
    if (e->kind == VARIABLE)
        return x;
    {
        int a = value(e->is.of.left, x), b = value(e->is.of.right, x);
        return e->kind == SUM ? a + b : a * b;
    }
}

static const expr *derived(const expr *e)
{
    const expr *a, *b;
    if (e->kind == NUMBER)
        return number(0);
    if (e->kind == VARIABLE)
        return number(1);
    a = e->is.of.left;
    b = e->is.of.right;
    if (e->kind == SUM)
        return pair(SUM, derived(a), derived(b));
    return pair(SUM, pair(PRODUCT, derived(a), b), pair(PRODUCT, a, derived(b)));
}

int main(void)
{
    const expr *x = fresh(VARIABLE);
    const expr *e = pair(SUM, pair(PRODUCT, x, pair(PRODUCT, x, number(3))), pair(PRODUCT, number(-2), x));
    const expr *d = derived(e);
    int i;
    show(e);
    printf("\n");
    show(d);
    printf("\n");
    for (i = -2; i <= 2; i++)
        printf("%d: %d %d\n", i, value(e, i), value(d, i));
    return value(d, 5);
}
