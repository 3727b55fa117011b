/* A tree that is kept balanced by turning its nodes. */
void *malloc(unsigned long);
void free(void *);
int printf(const char *, ...);

struct node {
    long key;
    int height;
    struct node *side[2];
};

static int height(struct node *n)
{
    return n ? n->height : 0;
}

static struct node *measured(struct node *n)
{
    int a = height(n->side[0]), b = height(n->side[1]);
    n->height = (a > b ? a : b) + 1;
    return n;
}

static struct node *turned(struct node *n, int to)
{
    struct node *top = n->side[!to];
    n->side[!to] = top->side[to];
    top->side[to] = measured(n);
    return measured(top);
}

static struct node *balanced(struct node *n)
{
    int lean = height(n->side[1]) - height(n->side[0]);
    int way = lean > 0;
    struct node *deep;
    if (lean >= -1 && lean <= 1)
        return measured(n);
    deep = n->side[way];
    if (height(deep->side[!way]) > height(deep->side[way]))
        n->side[way] = turned(deep, way);
    return turned(n, !way);
}

static struct node *with(struct node *n, long key)
{
    if (!n) {
        n = malloc(sizeof *n);
        if (!n)
            return 0;
        n->key = key;
        n->side[0] = n->side[1] = 0;
    } else if (n->key != key) {
        int way = n->key < key;
        n->side[way] = with(n->side[way], key);
    }
    return balanced(n);
}

static long sum_and_free(struct node *n, int depth)
{
    long sum;
    if (!n)
        return 0;
    sum = n->key * depth + sum_and_free(n->side[0], depth + 1) + sum_and_free(n->side[1], depth + 1);
    free(n);
    return sum;
}

int main(void)
{
    struct node *root = 0;
    long i;
    for (i = 1; i <= 127; i++)
        root = with(root, i * 1000000007L);
    printf("height %d, root %ld\n", root->height, root->key);
    for (i = 0; i < 50; i++)
        root = with(root, -i * i);
    printf("height %d, root %ld\n", root->height, root->key);
    printf("%ld\n", sum_and_free(root, 1));
    return 0;
}
