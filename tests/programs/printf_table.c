/* A table with columns that are padded by hand, from records. */
int printf(const char *, ...);
int putchar(int);

struct row {
    const char *what;
    int count;
    long price;
};

static int width(long n)
{
    int digits = n < 0 ? 2 : 1;
    while (n > 9 || n < -9) {
        n /= 10;
        digits++;
    }
    return digits;
}

static void blanks(int n)
{
    while (n-- > 0)
        putchar(' ');
}

static void money(long cents, int room)
{
    long whole = cents / 100, part = cents % 100;
    if (part < 0)
        part = -part;
    blanks(room - width(whole) - 3);
    printf("%ld.%s%ld", whole, part < 10 ? "0" : "", part);
}

int main(void)
{
    static const struct row rows[] = {
        { "nails", 1200, 3 }, { "hammer", 2, 1999 }, { "plank", 14, 450 }, { "refund", -1, 12345 }, { "nothing", 0, 1 }, { 0 }
    };
    const struct row *r;
    long total = 0;
    for (r = rows; r->what; r++) {
        long sum = r->count * r->price;
        blanks(10 - printf("%s", r->what));
        blanks(6 - width(r->count));
        printf("%d", r->count);
        money(r->price, 10);
        money(sum, 12);
        putchar('\n');
        total += sum;
    }
    blanks(26);
    money(total, 12);
    putchar('\n');
    return (int)(r - rows);
}
