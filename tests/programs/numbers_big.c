/* Numbers of many digits: factorials, powers of two, and a square root. */
int printf(const char *, ...);
int putchar(int);

enum { DIGITS = 60 };

typedef struct {
    unsigned char digit[DIGITS];
    int count;
} number;

static number number_of(unsigned value)
{
    number n = { { 0 }, 0 };
    do {
        n.digit[n.count++] = value % 10;
        value /= 10;
    } while (value);
    return n;
}

static void multiply(number *n, unsigned by)
{
    unsigned carry = 0;
    int i;
    for (i = 0; i < n->count || carry; i++) {
        unsigned all = carry + (i < n->count ? n->digit[i] * by : 0);
        n->digit[i] = all % 10;
        carry = all / 10;
    }
    if (i > n->count)
        n->count = i;
}

static number sum(number a, const number *b)
{
    int i, carry = 0;
    for (i = 0; i < a.count || i < b->count || carry; i++) {
        carry += (i < a.count ? a.digit[i] : 0) + (i < b->count ? b->digit[i] : 0);
        a.digit[i] = carry % 10;
        carry /= 10;
    }
    a.count = i;
    return a;
}

static void show(const number *n)
{
    int i;
    for (i = n->count; i-- > 0;)
        putchar('0' + n->digit[i]);
    printf(" (%d)\n", n->count);
}

static unsigned long root(unsigned long n)
{
    unsigned long low = 0, high = 4294967296;
    while (high - low > 1) {
        unsigned long middle = low + (high - low) / 2;
        if (middle <= n / middle)
            low = middle;
        else
            high = middle;
    }
    return low;
}

int main(void)
{
    number f = number_of(1), p = number_of(1), a = number_of(0), b = number_of(1), c;
    unsigned i;
    for (i = 2; i <= 30; i++)
        multiply(&f, i);
    show(&f);
    for (i = 0; i < 100; i++)
        multiply(&p, 2);
    show(&p);
    for (i = 0; i < 150; i++) {
        c = sum(a, &b);
        a = b;
        b = c;
    }
    show(&a);
    printf("%lu %lu\n", root(1000000), root(18446744073709551615UL));
    return f.count;
}
