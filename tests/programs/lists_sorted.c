/* Numbers go into a list that stays in order, and leave it again. */
void *malloc(unsigned long);
void free(void *);
int printf(const char *, ...);

struct node {
    int value;
    struct node *next;
};

static int insert(struct node **at, int value)
{
    struct node *fresh = malloc(sizeof *fresh);
    if (!fresh)
        return 0;
    while (*at && (*at)->value < value)
        at = &(*at)->next;
    fresh->value = value;
    fresh->next = *at;
    *at = fresh;
    return 1;
}

static int remove_all(struct node **at, int value)
{
    int count = 0;
    while (*at) {
        if ((*at)->value == value) {
            struct node *dead = *at;
            *at = dead->next;
            free(dead);
            count++;
        } else
            at = &(*at)->next;
    }
    return count;
}

static void show(const struct node *list)
{
    const char *before = "";
    for (; list; list = list->next) {
        printf("%s%d", before, list->value);
        before = " ";
    }
    printf("\n");
}

int main(void)
{
    static const int values[] = { 5, -3, 12, 5, 0, 7, -3, 100, 5 };
    struct node *list = 0;
    unsigned i;
    int gone;
    for (i = 0; i < sizeof values / sizeof *values; i++)
        if (!insert(&list, values[i]))
            return 1;
    show(list);
    gone = remove_all(&list, 5);
    show(list);
    gone += remove_all(&list, 4) * 10 + remove_all(&list, -3);
    show(list);
    while (list)
        remove_all(&list, list->value);
    show(list);
    return gone;
}
