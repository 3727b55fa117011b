/* Three plain ways to sort, which do as many moves as they count. */
int printf(const char *, ...);

static int moves;

static void set(int *list, int at, int value)
{
    list[at] = value;
    moves++;
}

static void by_insertion(int *list, int count)
{
    int i, k;
    for (i = 1; i < count; i++) {
        int moved = list[i];
        for (k = i; k > 0 && list[k - 1] > moved; k--)
            set(list, k, list[k - 1]);
        set(list, k, moved);
    }
}

static void by_gaps(int *list, int count)
{
    int gap, i, k;
    for (gap = count / 2; gap > 0; gap /= 2)
        for (i = gap; i < count; i++) {
            int moved = list[i];
            for (k = i; k >= gap && list[k - gap] > moved; k -= gap)
                set(list, k, list[k - gap]);
            set(list, k, moved);
        }
}

static void by_counting(int *list, int count)
{
    int seen[100] = { 0 }, i, value, at = 0;
    for (i = 0; i < count; i++)
        seen[list[i]]++;
    for (value = 0; value < 100; value++)
        while (seen[value]-- > 0)
            set(list, at++, value);
}

int main(void)
{
    static void (*const ways[])(int *, int) = { by_insertion, by_gaps, by_counting };
    static const char *const names[] = { "insertion", "gaps", "counting" };
    int way, i, list[32], sum = 0;
    for (way = 0; way < 3; way++) {
        for (i = 0; i < 32; i++)
            list[i] = (i * i * 31 + 7 * i) % 97;
        moves = 0;
        ways[way](list, 32);
        for (i = 1; i < 32; i++)
            if (list[i - 1] > list[i])
                return 255;
        printf("%s: %d moves, %d to %d\n", names[way], moves, list[0], list[31]);
        sum += moves;
    }
    return sum % 256;
}
