/* Conversions between integer types, and arithmetic that wraps round. */
int printf(const char *, ...);

static unsigned char byte(int n) { return n; }
static signed char small(int n) { return n; }
static short middle(long n) { return n; }
static _Bool truth(long n) { return n; }

enum colour { RED = -1, GREEN, BLUE = 7 };
enum size { SMALL, LARGE = 3000000000u - 2999999990u };

int main(void)
{
    unsigned char c = 250;
    signed char s = 127;
    unsigned u = 3;
    long big = 0x123456789aL;
    int i;
    for (i = -300; i <= 300; i += 150)
        printf("%d %d %d %d\n", byte(i), small(i), middle(i * 1000L), truth(i));
    c += 10;
    s++;
    printf("%d %d %d\n", c, s, (unsigned char)(c - 5));
    printf("%u %d %d\n", u - 5, u - 5 > 0, (int)u - 5 > 0);
    printf("%d %u %lx\n", (int)big, (unsigned)big, (unsigned long)big * 0x100000001u);
    printf("%d %d\n", -1 < 1u, -1L < 1u);
    printf("%d %d %d\n", RED < GREEN, (enum colour)BLUE + SMALL, LARGE);
    printf("%d %d %d %d\n", -7 / 2, -7 % 2, 7 / -2, 7 % -2);
    printf("%lu %d\n", sizeof(char) + sizeof 'a', (int)sizeof(long long) + (int)sizeof(short));
    printf("%d %d\n", '\377', '\x7f');
    printf("%x %x\n", ~0u >> 4, -1 >> 4);
    return (unsigned char)(s + 3) % 100;
}
