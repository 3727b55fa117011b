/* Quicksort over any elements, by a function that compares two of them. */
int printf(const char *, ...);
void *memcpy(void *, const void *, unsigned long);

typedef int order(const void *, const void *);

static void swap(unsigned char *a, unsigned char *b, unsigned long size)
{
    while (size-- > 0) {
        unsigned char kept = a[size];
        a[size] = b[size];
        b[size] = kept;
    }
}

static void sort(void *base, unsigned long count, unsigned long size, order *compare)
{
    unsigned char *low = base, *end = low + count * size, *at, *last;
    if (count < 2)
        return;
    swap(low, low + count / 2 * size, size);
    last = low;
    for (at = low + size; at < end; at += size)
        if (compare(at, low) < 0) {
            last += size;
            if (last != at)
                swap(last, at, size);
        }
    if (last != low)
        swap(low, last, size);
    sort(low, (last - low) / size, size, compare);
    sort(last + size, (end - last) / size - 1, size, compare);
}

static int by_value(const void *a, const void *b)
{
    const int *x = a, *y = b;
    return (*x > *y) - (*x < *y);
}

static int by_last_digit(const void *a, const void *b)
{
    const int *x = a, *y = b;
    int d = *x % 10 - *y % 10;
    return d ? d : by_value(a, b);
}

static const int given[] = { 314, 159, 265, 358, 979, 323, 846, 264, 338, 327, 950, 288, 419, 716 };

static void show(const char *title, order *compare)
{
    int copy[sizeof given / sizeof *given];
    unsigned i, n = sizeof given / sizeof *given;
    memcpy(copy, given, sizeof given);
    sort(copy, n, sizeof *copy, compare);
    printf("%s:", title);
    for (i = 0; i < n; i++)
        printf(" %d", copy[i]);
    printf("\n");
}

int main(void)
{
    show("by value", by_value);
    show("by last digit", by_last_digit);
    return 0;
}
