/* Bits are counted, reversed, turned, packed and searched. */
int printf(const char *, ...);

static int count(unsigned long word)
{
    int n = 0;
    for (; word; word &= word - 1)
        n++;
    return n;
}

static unsigned reversed(unsigned word)
{
    word = (word >> 1 & 0x55555555u) | (word & 0x55555555u) << 1;
    word = (word >> 2 & 0x33333333u) | (word & 0x33333333u) << 2;
    word = (word >> 4 & 0x0f0f0f0fu) | (word & 0x0f0f0f0fu) << 4;
    word = (word >> 8 & 0x00ff00ffu) | (word & 0x00ff00ffu) << 8;
    return word >> 16 | word << 16;
}

static unsigned turned(unsigned word, int by)
{
    by &= 31;
    return by ? word << by | word >> (32 - by) : word;
}

static unsigned checksum(const char *text)
{
    unsigned sum = ~0u;
    int k;
    while (*text) {
        sum ^= (unsigned char)*text++;
        for (k = 0; k < 8; k++)
            sum = sum >> 1 ^ (sum & 1 ? 0xedb88320u : 0);
    }
    return ~sum;
}

int main(void)
{
    unsigned long one = 1;
    unsigned short s = 0xfffe;
    signed char c = (signed char)0x80;
    printf("%d %d %d\n", count(0), count(~0ul), count(0x8000000000000001));
    printf("%x %x\n", reversed(1), reversed(0x12345678));
    printf("%x %x %x\n", turned(0x80000001, 1), turned(0x12345678, 8), turned(5, 32));
    printf("%x\n", checksum("123456789"));
    printf("%lx %lx\n", one << 63, one << 63 >> 62);
    s += 3;
    c >>= 3;
    printf("%d %d %d %d\n", s, c, ~c, -8 >> 1);
    printf("%d %d\n", 6 & 3 | 8 ^ 1, !!(5 & 2) + (5 >> 2));
    return count(reversed(0xf0f0f0f0)) + s;
}
