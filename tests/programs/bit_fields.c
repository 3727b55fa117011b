/* Dates packed into bit-fields, flags, and fields that are reduced as they are stored. */
int printf(const char *, ...);

struct date {
    unsigned day : 5, month : 4, year : 12;
    unsigned is_leap : 1;
    _Bool is_set : 1;
};

struct small {
    signed a : 3;
    unsigned b : 3;
    int : 0;
    int c : 30;
    signed char d;
};

static struct date date_of(unsigned year, unsigned month, unsigned day)
{
    struct date d = { day, month, year, 0, 1 };
    d.is_leap = year % 4 == 0 && year % 100 != 0 || year % 400 == 0;
    return d;
}

static struct date next(struct date d)
{
    static const unsigned char days[] = { 31, 28, 31, 30, 31, 30, 31, 31, 30, 31, 30, 31 };
    unsigned last = days[d.month - 1] + (d.month == 2 && d.is_leap);
    if (d.day++ < last)
        return d;
    d.day = 1;
    if (++d.month > 12)
        return date_of(d.year + 1, 1, 1);
    return d;
}

static void show(struct date d)
{
    printf("%u-%u-%u%s\n", (unsigned)d.year, (unsigned)d.month, (unsigned)d.day, d.is_leap ? " leap" : "");
}

int main(void)
{
    struct date d = date_of(2023, 12, 30);
    struct small s = { 0 };
    int i, sum = 0;
    for (i = 0; i < 5; i++) {
        show(d);
        d = next(d);
    }
    d = date_of(2024, 2, 28);
    for (i = 0; i < 3; i++) {
        show(d);
        d = next(d);
    }
    for (i = -5; i <= 5; i++) {
        s.a = i;
        s.b = i;
        s.c += s.a * s.b;
        printf("%d %u %d\n", s.a, (unsigned)s.b, s.c);
        sum += s.a;
    }
    s.b += 6;
    s.a ^= 5;
    s.d = s.a + s.b;
    printf("%d %u %d, %d bytes\n", s.a, (unsigned)s.b, s.d, (int)sizeof s);
    return sum + 40 + d.is_set;
}
