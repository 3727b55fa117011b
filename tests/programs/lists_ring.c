/* People stand in a ring, and each third one leaves it. */
void *calloc(unsigned long, unsigned long);
void free(void *);
int printf(const char *, ...);

struct person {
    struct person *left, *right;
    int number;
};

static struct person *ring_of(int count)
{
    struct person *first = 0;
    while (count > 0) {
        struct person *p = calloc(1, sizeof(struct person));
        if (!p)
            return 0;
        p->number = count--;
        if (!first)
            p->left = p->right = p;
        else {
            p->right = first;
            p->left = first->left;
            first->left->right = p;
            first->left = p;
        }
        first = p;
    }
    return first;
}

int main(void)
{
    struct person *at = ring_of(17);
    int last;
    if (!at)
        return 255;
    while (at->right != at) {
        struct person *gone = at->right->right;
        printf("%d ", gone->number);
        gone->left->right = gone->right;
        gone->right->left = gone->left;
        at = gone->right;
        free(gone);
    }
    last = at->number;
    printf("and %d stays\n", last);
    free(at);
    return last;
}
