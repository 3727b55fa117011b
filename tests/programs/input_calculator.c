/* Reads expressions, a line each, and prints their values. */
int getchar(void);
int printf(const char *, ...);

static int next;
static int failed;

static void skip(void)
{
    do
        next = getchar();
    while (next == ' ');
}

static long expression(void);

static long factor(void)
{
    long value = 0;
    if (next == '-') {
        skip();
        return -factor();
    }
    if (next == '(') {
        skip();
        value = expression();
        if (next != ')')
            failed = 1;
        else
            skip();
        return value;
    }
    if (next < '0' || next > '9') {
        failed = 1;
        return 0;
    }
    while (next >= '0' && next <= '9') {
        value = value * 10 + (next - '0');
        next = getchar();
    }
    if (next == ' ')
        skip();
    return value;
}

static long term(void)
{
    long value = factor();
    while (next == '*' || next == '/' || next == '%') {
        int mark = next;
        long other;
        skip();
        other = factor();
        if (mark == '*')
            value *= other;
        else if (other == 0)
            failed = 1;
        else
            value = mark == '/' ? value / other : value % other;
    }
    return value;
}

static long expression(void)
{
    long value = term();
    while (next == '+' || next == '-') {
        int mark = next;
        skip();
        value = mark == '+' ? value + term() : value - term();
    }
    return value;
}

int main(void)
{
    int faults = 0;
    for (skip(); next != -1; skip()) {
        long value;
        failed = 0;
        value = expression();
        if (next != '\n')
            failed = 1;
        while (next != '\n' && next != -1)
            next = getchar();
        if (failed)
            faults++, printf("fault\n");
        else
            printf("%ld\n", value);
    }
    return faults;
}
