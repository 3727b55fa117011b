/* One object seen as a number, as bytes, as halves and as bits. */
int printf(const char *, ...);
void *memset(void *, int, unsigned long);

union view {
    unsigned long whole;
    unsigned halves[2];
    unsigned short quarters[4];
    unsigned char bytes[8];
    struct {
        unsigned low : 12;
        unsigned middle : 8;
        unsigned high : 12;
    } fields;
    signed char sign;
};

union copied {
    int number;
    char letters[4];
};

static void show(const union view *v)
{
    int i;
    printf("%lx | %x %x |", v->whole, v->halves[0], v->halves[1]);
    for (i = 0; i < 4; i++)
        printf(" %x", v->quarters[i]);
    printf(" |");
    for (i = 7; i >= 0; i--)
        printf(" %x", v->bytes[i]);
    printf(" | %x %x %x | %d\n", (unsigned)v->fields.low, (unsigned)v->fields.middle, (unsigned)v->fields.high, v->sign);
}

int main(void)
{
    union view v = { 0x0123456789abcdef };
    union copied a, b;
    show(&v);
    v.bytes[0] = 200;
    v.quarters[3] = 0xbeef;
    show(&v);
    v.fields.middle = 0;
    v.fields.high++;
    show(&v);
    memset(&v, 0x5a, sizeof v);
    show(&v);
    a.number = 258;
    b = a;
    b.letters[1]++;
    printf("%d %d %d\n", a.number, b.number, b.letters[1] * 10 + b.letters[0]);
    return v.bytes[3];
}
