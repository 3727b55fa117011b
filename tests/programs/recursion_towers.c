/* Towers that are moved disk by disk, and other functions that call themselves. */
int printf(const char *, ...);

static char towers[3][8];
static int heights[3];
static int moves;

static void move(int from, int to)
{
    char disk = towers[from][--heights[from]];
    towers[to][heights[to]++] = disk;
    moves++;
}

static void shift(int count, int from, int to, int over)
{
    if (count == 0)
        return;
    shift(count - 1, from, over, to);
    move(from, to);
    shift(count - 1, over, to, from);
}

static void show(void)
{
    int t, d;
    for (t = 0; t < 3; t++) {
        printf("|");
        for (d = 0; d < heights[t]; d++)
            printf("%d", towers[t][d]);
    }
    printf("|\n");
}

static unsigned ackermann(unsigned m, unsigned n)
{
    return m == 0 ? n + 1 : n == 0 ? ackermann(m - 1, 1) : ackermann(m - 1, ackermann(m, n - 1));
}

static long binomial(int n, int k)
{
    return k == 0 || k == n ? 1 : binomial(n - 1, k - 1) + binomial(n - 1, k);
}

int main(void)
{
    int d;
    for (d = 6; d > 0; d--)
        towers[0][heights[0]++] = d;
    show();
    shift(6, 0, 2, 1);
    show();
    printf("%d moves, %u, %ld\n", moves, ackermann(2, 5), binomial(14, 5));
    return moves;
}
