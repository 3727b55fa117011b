/* A list is sorted by splitting it into two and merging these. */
void *malloc(unsigned long);
void free(void *);
int printf(const char *, ...);
int putchar(int);

typedef struct item {
    struct item *next;
    unsigned key;
} item;

static item *merge(item *a, item *b)
{
    item head, *last = &head;
    head.next = 0;
    while (a && b) {
        item **least = b->key < a->key ? &b : &a;
        last->next = *least;
        last = *least;
        *least = (*least)->next;
    }
    last->next = a ? a : b;
    return head.next;
}

static item *sorted(item *list)
{
    item *slow = list, *fast;
    if (!list || !list->next)
        return list;
    for (fast = list->next; fast && fast->next; fast = fast->next->next)
        slow = slow->next;
    fast = slow->next;
    slow->next = 0;
    return merge(sorted(list), sorted(fast));
}

int main(void)
{
    item *list = 0, *one;
    unsigned seed = 17, last = 0;
    int i, steps = 0;
    for (i = 0; i < 60; i++) {
        if (!(one = malloc(sizeof(item))))
            return 1;
        seed = seed * 1103515245u + 12345u;
        one->key = seed >> 20 & 255;
        one->next = list;
        list = one;
    }
    list = sorted(list);
    while ((one = list) != 0) {
        if (one->key < last)
            return 2;
        last = one->key;
        printf("%u%c", last, ++steps % 12 ? ' ' : '\n');
        list = one->next;
        free(one);
    }
    putchar('\n');
    return steps;
}
