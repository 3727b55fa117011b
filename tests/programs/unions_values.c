/* Values of several kinds in one type, in a list that is added up and shown. */
int printf(const char *, ...);
int puts(const char *);

typedef struct value value;
struct value {
    enum { NOTHING, NUMBER, WORD, PAIR } kind;
    union {
        long number;
        const char *word;
        struct {
            const value *first, *second;
        } pair;
    } as;
};

static void show(const value *v)
{
    switch (v->kind) {
    case NOTHING: printf("()"); break;
    case NUMBER: printf("%ld", v->as.number); break;
    case WORD: printf("'%s'", v->as.word); break;
    case PAIR:
        printf("(");
        show(v->as.pair.first);
        for (v = v->as.pair.second; v->kind == PAIR; v = v->as.pair.second) {
            printf(" ");
            show(v->as.pair.first);
        }
        printf(")");
    }
}

static long weight(const value *v)
{
    const char *c;
    long sum = 0;
    switch (v->kind) {
    case NUMBER:
        return v->as.number;
    case WORD:
        for (c = v->as.word; *c; c++)
            sum += *c - 'a' + 1;
        return sum;
    case PAIR:
        return weight(v->as.pair.first) + 2 * weight(v->as.pair.second);
    default:
        return 1;
    }
}

int main(void)
{
    value nothing = { NOTHING };
    value seven = { NUMBER, { 7 } }, less = { NUMBER, { .number = -3000000000L } };
    value word = { .kind = WORD, .as.word = "union" };
    value a = { PAIR, { .pair = { &less, &nothing } } };
    value b = { PAIR, .as.pair = { &word, &a } };
    value c = { PAIR, .as = { .pair = { &seven, &b } } };
    value d = { PAIR, .as.pair.first = &c, .as.pair.second = &nothing };
    show(&d);
    puts("");
    printf("%ld\n", weight(&d));
    return (int)weight(&word);
}
