/* A search tree: keys go in, are found, and leave. */
void *malloc(unsigned long);
void free(void *);
int printf(const char *, ...);

typedef struct tree tree;
struct tree {
    int key, count;
    tree *low, *high;
};

static tree **place_of(tree **at, int key)
{
    while (*at && (*at)->key != key)
        at = key < (*at)->key ? &(*at)->low : &(*at)->high;
    return at;
}

static void put(tree **root, int key)
{
    tree **at = place_of(root, key);
    if (!*at) {
        *at = malloc(sizeof **at);
        if (!*at)
            return;
        (*at)->key = key;
        (*at)->count = 0;
        (*at)->low = (*at)->high = 0;
    }
    (*at)->count++;
}

static int take(tree **root, int key)
{
    tree **at = place_of(root, key), *dead = *at;
    if (!dead)
        return 0;
    if (dead->low && dead->high) {
        tree **next = &dead->high;
        while ((*next)->low)
            next = &(*next)->low;
        dead->key = (*next)->key;
        dead->count = (*next)->count;
        at = next;
        dead = *next;
    }
    *at = dead->low ? dead->low : dead->high;
    free(dead);
    return 1;
}

static int depth(const tree *t)
{
    int a, b;
    if (!t)
        return 0;
    a = depth(t->low);
    b = depth(t->high);
    return 1 + (a > b ? a : b);
}

static void show(const tree *t)
{
    if (t) {
        show(t->low);
        printf("%d*%d ", t->key, t->count);
        show(t->high);
    }
}

int main(void)
{
    tree *root = 0;
    int i, taken = 0;
    for (i = 0; i < 40; i++)
        put(&root, i * 37 % 23);
    show(root);
    printf("depth %d\n", depth(root));
    for (i = 0; i < 30; i += 3)
        taken += take(&root, i);
    show(root);
    printf("depth %d\n", depth(root));
    while (root)
        take(&root, root->key);
    return taken;
}
