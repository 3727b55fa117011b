/* A text that grows as others are added to it. */
void *malloc(unsigned long);
void free(void *);
void *memcpy(void *, const void *, unsigned long);
int puts(const char *);
int printf(const char *, ...);

struct builder {
    char *bytes;
    unsigned long length, room;
};

static int reserve(struct builder *b, unsigned long more)
{
    unsigned long room = b->room ? b->room : 4;
    char *bytes;
    while (room < b->length + more)
        room *= 2;
    if (room == b->room)
        return 1;
    bytes = malloc(room);
    if (!bytes)
        return 0;
    if (b->bytes)
        memcpy(bytes, b->bytes, b->length);
    free(b->bytes);
    b->bytes = bytes;
    b->room = room;
    return 1;
}

static int add(struct builder *b, const char *text)
{
    unsigned long n = 0;
    while (text[n])
        n++;
    if (!reserve(b, n + 1))
        return 0;
    memcpy(b->bytes + b->length, text, n + 1);
    b->length += n;
    return 1;
}

int main(void)
{
    static const char *const parts[] = { "one", ", ", "two", ", ", "three", ", ", "and so on" };
    struct builder b = { 0 };
    int i, j;
    for (i = 0; i < 3; i++)
        for (j = 0; j < 7; j++)
            if (!add(&b, parts[j]))
                return 1;
    puts(b.bytes);
    printf("%lu of %lu\n", b.length, b.room);
    free(b.bytes);
    return 0;
}
