/* Cells that live and die by their neighbours, on a board without edges. */
int putchar(int);
int printf(const char *, ...);

enum { ROWS = 8, COLUMNS = 10 };

static char board[2][ROWS][COLUMNS];

static int neighbours(char (*from)[COLUMNS], int row, int column)
{
    int i, j, n = 0;
    for (i = -1; i <= 1; i++)
        for (j = -1; j <= 1; j++)
            if (i || j)
                n += from[(row + i + ROWS) % ROWS][(column + j + COLUMNS) % COLUMNS];
    return n;
}

static int step(int now)
{
    int i, j, alive = 0;
    for (i = 0; i < ROWS; i++)
        for (j = 0; j < COLUMNS; j++) {
            int n = neighbours(board[now], i, j);
            alive += board[!now][i][j] = n == 3 || n == 2 && board[now][i][j];
        }
    return alive;
}

static void show(char (*from)[COLUMNS])
{
    int i, j;
    for (i = 0; i < ROWS; i++) {
        for (j = 0; j < COLUMNS; j++)
            putchar(from[i][j] ? '*' : '.');
        putchar('\n');
    }
}

int main(void)
{
    static const signed char glider[][2] = { { 0, 1 }, { 1, 2 }, { 2, 0 }, { 2, 1 }, { 2, 2 } };
    int now = 0, turn, alive = 0;
    unsigned i;
    for (i = 0; i < sizeof glider / sizeof *glider; i++)
        board[0][glider[i][0]][glider[i][1]] = 1;
    for (i = 4; i < 8; i++)
        board[0][6][i] = 1;
    show(board[now]);
    for (turn = 1; turn <= 6; turn++) {
        alive = step(now);
        now = !now;
        printf("%d: %d\n", turn, alive);
    }
    show(board[now]);
    return alive;
}
