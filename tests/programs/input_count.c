/* Lines, words and bytes of the input. */
int getchar(void);
int printf(const char *, ...);

int main(void)
{
    unsigned long lines = 0, words = 0, bytes = 0;
    int c, inside = 0;
    while ((c = getchar()) != -1) {
        bytes++;
        if (c == '\n')
            lines++;
        if (c == ' ' || c == '\n' || c == '\t')
            inside = 0;
        else if (!inside) {
            inside = 1;
            words++;
        }
    }
    printf("%lu %lu %lu\n", lines, words, bytes);
    return getchar() == -1 ? (int)words : 255;
}
