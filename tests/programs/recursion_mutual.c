/* Functions that call each other: parity, sequences, and a reader of balanced brackets. */
int printf(const char *, ...);

static int is_odd(unsigned n);

static int is_even(unsigned n)
{
    return n == 0 || is_odd(n - 1);
}

static int is_odd(unsigned n)
{
    return n != 0 && is_even(n - 1);
}

static int male(int n);

static int female(int n)
{
    return n == 0 ? 1 : n - male(female(n - 1));
}

static int male(int n)
{
    return n == 0 ? 0 : n - female(male(n - 1));
}

static const char *group(const char *at);

static const char *groups(const char *at)
{
    while (at && (*at == '(' || *at == '['))
        at = group(at);
    return at;
}

static const char *group(const char *at)
{
    char close = *at == '(' ? ')' : ']';
    at = groups(at + 1);
    return at && *at == close ? at + 1 : 0;
}

static int is_balanced(const char *text)
{
    const char *end = groups(text);
    return end && !*end;
}

int main(void)
{
    static const char *const texts[] = { "", "()", "([])[()()]", "(]", "((", "())", "[[[[]]]]" };
    int i, sum = 0;
    for (i = 0; i < 7; i++) {
        printf("%s %d\n", texts[i], is_balanced(texts[i]));
        sum += is_balanced(texts[i]);
    }
    for (i = 0; i < 16; i++)
        printf("%d/%d ", female(i), male(i));
    printf("\n%d %d\n", is_even(100), is_odd(77));
    return sum;
}
