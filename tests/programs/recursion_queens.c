/* Queens that don't attack each other, by trying and taking back. */
int printf(const char *, ...);
int putchar(int);

enum { SIZE = 6 };

static unsigned char column[SIZE], rising[2 * SIZE - 1], falling[2 * SIZE - 1];
static signed char at[SIZE];

static int place(int row)
{
    int c, found = 0;
    if (row == SIZE) {
        for (c = 0; c < SIZE; c++)
            putchar('a' + at[c]);
        putchar('\n');
        return 1;
    }
    for (c = 0; c < SIZE; c++) {
        if (column[c] || rising[row + c] || falling[row - c + SIZE - 1])
            continue;
        column[c] = rising[row + c] = falling[row - c + SIZE - 1] = 1;
        at[row] = c;
        found += place(row + 1);
        column[c] = rising[row + c] = falling[row - c + SIZE - 1] = 0;
    }
    return found;
}

int main(void)
{
    int found = place(0);
    printf("%d\n", found);
    return found;
}
