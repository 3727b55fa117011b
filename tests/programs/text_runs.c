/* Runs of equal bytes are shortened, and made long again. */
int printf(const char *, ...);
int puts(const char *);

static int shorten(const char *from, char *to)
{
    char *begin = to;
    while (*from) {
        int n = 1;
        while (n < 9 && from[n] == *from)
            n++;
        if (n > 2) {
            *to++ = '0' + n;
            *to++ = *from;
            from += n;
        } else
            *to++ = *from++;
    }
    *to = '\0';
    return to - begin;
}

static int lengthen(const char *from, char *to)
{
    char *begin = to;
    for (; *from; from++) {
        int n = 1;
        if (*from >= '1' && *from <= '9')
            n = *from++ - '0';
        while (n-- > 0)
            *to++ = *from;
    }
    *to = '\0';
    return to - begin;
}

int main(void)
{
    static const char *const all[] = { "", "a", "aabbb", "xxxxxxxxxxxxxxxxxxxxyz", "abcabc", "zzzz zzzz    ." };
    char shorter[64], longer[64];
    int i, k, saved = 0;
    for (i = 0; i < 6; i++) {
        int a = shorten(all[i], shorter), b = lengthen(shorter, longer);
        printf("%d %d ", a, b);
        puts(shorter);
        for (k = 0; k <= b; k++)
            if (longer[k] != all[i][k])
                return 255;
        saved += b - a;
    }
    return saved;
}
