/* The lines of the input, from the last to the first, each turned round. */
int getchar(void);
int putchar(int);
int puts(const char *);
void *malloc(unsigned long);
void free(void *);

struct line {
    struct line *before;
    unsigned length;
    char bytes[60];
};

static struct line *read(struct line *before)
{
    struct line *l = malloc(sizeof *l);
    int c;
    if (!l)
        return 0;
    l->before = before;
    l->length = 0;
    while ((c = getchar()) >= 0 && c != '\n')
        if (l->length < sizeof l->bytes)
            l->bytes[l->length++] = c;
    if (c < 0 && l->length == 0) {
        free(l);
        return 0;
    }
    return l;
}

int main(void)
{
    struct line *last = 0, *next;
    int count = 0;
    while ((next = read(last)) != 0) {
        last = next;
        count++;
    }
    while (last) {
        next = last->before;
        while (last->length > 0)
            putchar(last->bytes[--last->length]);
        puts(".");
        free(last);
        last = next;
    }
    return count;
}
