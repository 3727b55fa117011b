/* A text is split into its words, which are counted by their lengths. */
int printf(const char *, ...);
int putchar(int);

static int is_letter(int c)
{
    return c >= 'a' && c <= 'z' || c >= 'A' && c <= 'Z';
}

static const char text[] = "The quick brown fox jumps over the lazy dog; it doesn't "
                           "look back.";

static const char *word_at(const char *from, int *count)
{
    const char *begin;
    while (*from && !is_letter(*from))
        from++;
    begin = from;
    while (is_letter(*from))
        from++;
    *count = from - begin;
    return begin;
}

int main(void)
{
    int lengths[10] = { 0 };
    const char *at = text;
    int count, words = 0, i;
    for (at = word_at(at, &count); count; at = word_at(at + count, &count)) {
        for (i = count; i-- > 0;)
            putchar(at[i]);
        putchar(words++ % 5 == 4 ? '\n' : ' ');
        lengths[count]++;
    }
    putchar('\n');
    for (i = 0; i < 10; i++)
        if (lengths[i])
            printf("%d: %d\n", i, lengths[i]);
    return words;
}
