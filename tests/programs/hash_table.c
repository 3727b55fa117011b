/* Words are counted in a table of chains, which grows. */
void *calloc(unsigned long, unsigned long);
void free(void *);
int printf(const char *, ...);

struct entry {
    struct entry *next;
    const char *word;
    unsigned count;
};

struct table {
    struct entry **slots;
    unsigned size, used;
};

static unsigned hash(const char *word)
{
    unsigned h = 2166136261u;
    while (*word)
        h = (h ^ (unsigned char)*word++) * 16777619u;
    return h;
}

static int same(const char *a, const char *b)
{
    while (*a && *a == *b)
        a++, b++;
    return *a == *b;
}

static int grow(struct table *t)
{
    unsigned size = t->size ? 2 * t->size : 2, i;
    struct entry **slots = calloc(size, sizeof *slots);
    if (!slots)
        return 0;
    for (i = 0; i < t->size; i++) {
        struct entry *e = t->slots[i];
        while (e) {
            struct entry *next = e->next, **slot = &slots[hash(e->word) % size];
            e->next = *slot;
            *slot = e;
            e = next;
        }
    }
    free(t->slots);
    t->slots = slots;
    t->size = size;
    return 1;
}

static unsigned *count_of(struct table *t, const char *word)
{
    struct entry *e = 0;
    if (t->used == t->size && !grow(t))
        return 0;
    for (e = t->slots[hash(word) % t->size]; e; e = e->next)
        if (same(e->word, word))
            return &e->count;
    e = calloc(1, sizeof *e);
    if (!e)
        return 0;
    e->word = word;
    e->next = t->slots[hash(word) % t->size];
    t->slots[hash(word) % t->size] = e;
    t->used++;
    return &e->count;
}

static const char *const words[] = {
    "a", "rose", "is", "a", "rose", "is", "a", "rose", "and", "not", "a", "thorn", "is", "it", "not", "?"
};

int main(void)
{
    struct table t = { 0, 0, 0 };
    unsigned i, sum = 0;
    for (i = 0; i < 16; i++) {
        unsigned *count = count_of(&t, words[i]);
        if (!count)
            return 1;
        ++*count;
    }
    for (i = 0; i < 16; i++) {
        unsigned *count = count_of(&t, words[i]);
        if (*count) {
            printf("%s %u\n", words[i], *count);
            sum += *count * *count;
        }
        *count = 0;
    }
    printf("%u of %u, %x\n", t.used, t.size, hash("rose"));
    return sum;
}
