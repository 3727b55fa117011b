/* A text is sought in another, by comparing everywhere and by a table of borders. */
int printf(const char *, ...);

static int at_place(const char *text, const char *sought)
{
    while (*sought)
        if (*text++ != *sought++)
            return 0;
    return 1;
}

static int find_plainly(const char *text, const char *sought)
{
    int at;
    for (at = 0; text[at]; at++)
        if (at_place(text + at, sought))
            return at;
    return -1;
}

static void borders_of(const char *sought, int *border)
{
    int i = 0, k = -1;
    border[0] = -1;
    while (sought[i]) {
        while (k >= 0 && sought[i] != sought[k])
            k = border[k];
        border[++i] = ++k;
    }
}

static int find_by_borders(const char *text, const char *sought)
{
    int border[32];
    int at = 0, k = 0;
    borders_of(sought, border);
    while (text[at]) {
        while (k >= 0 && text[at] != sought[k])
            k = border[k];
        at++, k++;
        if (!sought[k])
            return at - k;
    }
    return -1;
}

int main(void)
{
    static const char text[] = "abacabadabacabaeabacabadabacaba";
    static const char *const all[] = { "abac", "aba", "caba", "abae", "daba", "abad", "f", "e", "abacabae" };
    unsigned i;
    int sum = 0;
    for (i = 0; i < sizeof all / sizeof all[0]; i++) {
        int plain = find_plainly(text, all[i]);
        int quick = find_by_borders(text, all[i]);
        printf("%s at %d and %d\n", all[i], plain, quick);
        sum += plain;
        if (plain != quick)
            return 255;
    }
    return sum;
}
