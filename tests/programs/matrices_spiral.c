/* A square is filled in a spiral, turned by a quarter, and mirrored. */
int printf(const char *, ...);

enum { SIZE = 6 };

typedef int square[SIZE][SIZE];

static void fill(square grid)
{
    int row = 0, column = 0, down = 0, right = 1, n, kept;
    for (n = 0; n < SIZE; n++)
        for (kept = 0; kept < SIZE; kept++)
            grid[n][kept] = -1;
    for (n = 0; n < SIZE * SIZE; n++) {
        int next_row = row + down, next_column = column + right;
        grid[row][column] = n;
        if (next_row < 0 || next_row >= SIZE || next_column < 0 || next_column >= SIZE
            || grid[next_row][next_column] >= 0) {
            kept = right;
            right = -down;
            down = kept;
        }
        row += down;
        column += right;
    }
}

static void turn(square grid)
{
    int i, j;
    for (i = 0; i < SIZE / 2; i++)
        for (j = i; j < SIZE - 1 - i; j++) {
            int kept = grid[i][j];
            grid[i][j] = grid[SIZE - 1 - j][i];
            grid[SIZE - 1 - j][i] = grid[SIZE - 1 - i][SIZE - 1 - j];
            grid[SIZE - 1 - i][SIZE - 1 - j] = grid[j][SIZE - 1 - i];
            grid[j][SIZE - 1 - i] = kept;
        }
}

static void show(int (*grid)[SIZE])
{
    int i, j;
    for (i = 0; i < SIZE; i++) {
        for (j = 0; j < SIZE; j++)
            printf("%s%d", j ? grid[i][j] < 10 ? "  " : " " : "", grid[i][j]);
        printf("\n");
    }
    printf("\n");
}

int main(void)
{
    square grid;
    int i, diagonal = 0;
    fill(grid);
    show(grid);
    turn(grid);
    show(grid);
    for (i = 0; i < SIZE; i++)
        diagonal += *(*(grid + i) + i);
    printf("%d of %d bytes\n", diagonal, (int)sizeof grid);
    return diagonal;
}
