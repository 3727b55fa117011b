/* Every conversion of printf, with the least and the greatest values, and the counts that it answers. */
int printf(const char *, ...);
int puts(const char *);
int putchar(int);

int main(void)
{
    char text[] = { 't', 'e', 'x', 't', 0 };
    unsigned char bytes[] = "bytes";
    signed char least = -128;
    unsigned short half = 65535;
    _Bool truth = 5;
    int n = 0;
    n += printf("%d %d %d %i\n", 0, 2147483647, -2147483647 - 1, -1);
    n += printf("%u %u %u\n", 0u, 4294967295u, -1);
    n += printf("%x %x %x %x\n", 0, 255, 0x80000000u, -1);
    n += printf("%c%c%c%c\n", 'a', 'b' + 256, 'c' - 256, least + 128 + 100);
    n += printf("%ld %ld %ld\n", 0L, 9223372036854775807L, -9223372036854775807L - 1);
    n += printf("%lu %lu\n", 0UL, 18446744073709551615UL);
    n += printf("%lx %lx\n", 0xfedcba9876543210UL, -1L);
    n += printf("%s|%s|%s|%s\n", "", text, bytes, "a%db");
    n += printf("%% %d%% %%d %%%%\n", 50);
    n += printf("%d %d %d %d\n", least, half, truth, 'x');
    n += printf("%u %d\n", -5, 4000000000u);
    n += printf("%s", "");
    n += printf("");
    n += printf("no newline");
    n += putchar('\n') + puts("a line") + puts("");
    printf("%d\n", n);
    return n & 255;
}
