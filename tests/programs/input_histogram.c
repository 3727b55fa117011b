/* How often each letter stands in the input, as bars. */
int getchar(void);
int putchar(int);
int printf(const char *, ...);

int main(void)
{
    static unsigned seen[256];
    unsigned most = 1, c, i;
    int byte, kinds = 0;
    while ((byte = getchar()) != -1)
        if (++seen[byte] > most)
            most = seen[byte];
    for (c = 0; c < sizeof seen / sizeof *seen; c++) {
        if (!seen[c])
            continue;
        kinds++;
        if (c > ' ' && c < 127)
            printf(" %c ", c);
        else
            printf("%s%x ", c < 16 ? "0" : "", c);
        for (i = 0; i < (seen[c] * 40 + most - 1) / most; i++)
            putchar('#');
        printf(" %u\n", seen[c]);
    }
    return kinds;
}
