/* The shortest way through a maze, step by step from its entry. */
int puts(const char *);
int printf(const char *, ...);

static char maze[][20] = {
    "###################",
    "#S    #     #     #",
    "# ### # ### # ### #",
    "# #   #   #   #   #",
    "# # ##### ##### ###",
    "# #     #     #   #",
    "# ##### # ### ### #",
    "#     #   #     #E#",
    "###################",
};

enum { ROWS = sizeof maze / sizeof maze[0], COLUMNS = 19 };

struct place { signed char row, column; };

static struct place queue[ROWS * COLUMNS];
static short steps[ROWS][COLUMNS];
static const struct place ways[4] = { { -1, 0 }, { 0, 1 }, { 1, 0 }, { 0, -1 } };

static struct place find(char mark)
{
    struct place p;
    for (p.row = 0; p.row < ROWS; p.row++)
        for (p.column = 0; p.column < COLUMNS; p.column++)
            if (maze[p.row][p.column] == mark)
                return p;
    return (struct place){ -1, -1 };
}

static int search(struct place from, struct place to)
{
    int head = 0, tail = 0, w;
    queue[tail++] = from;
    steps[from.row][from.column] = 1;
    while (head < tail) {
        struct place p = queue[head++];
        if (p.row == to.row && p.column == to.column)
            return steps[p.row][p.column];
        for (w = 0; w < 4; w++) {
            struct place q = { p.row + ways[w].row, p.column + ways[w].column };
            if (maze[q.row][q.column] == '#' || steps[q.row][q.column])
                continue;
            steps[q.row][q.column] = steps[p.row][p.column] + 1;
            queue[tail++] = q;
        }
    }
    return 0;
}

int main(void)
{
    struct place from = find('S'), to = find('E'), at = to;
    int length = search(from, to), n, w, i;
    for (n = length - 1; n > 1; n--) {
        for (w = 0; w < 4; w++)
            if (steps[at.row + ways[w].row][at.column + ways[w].column] == n)
                break;
        at.row += ways[w].row;
        at.column += ways[w].column;
        maze[at.row][at.column] = '.';
    }
    for (i = 0; i < ROWS; i++)
        puts(maze[i]);
    printf("%d steps\n", length - 1);
    return length;
}
