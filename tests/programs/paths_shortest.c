/* Shortest ways between towns, from one of them and between all. */
int printf(const char *, ...);

enum town { A, B, C, D, E, F, TOWNS };

struct road { enum town from, to; unsigned length; };

static const struct road roads[] = {
    { A, B, 7 }, { A, C, 9 }, { A, F, 14 }, { B, C, 10 }, { B, D, 15 }, { C, D, 11 }, { C, F, 2 }, { D, E, 6 }, { E, F, 9 }
};

static const unsigned far = -1;

static void from_one(enum town start, unsigned length[TOWNS], int before[TOWNS])
{
    _Bool done[TOWNS] = { 0 };
    int i, turn;
    for (i = 0; i < TOWNS; i++)
        length[i] = far, before[i] = -1;
    length[start] = 0;
    for (turn = 0; turn < TOWNS; turn++) {
        int least = -1;
        unsigned r;
        for (i = 0; i < TOWNS; i++)
            if (!done[i] && (least < 0 || length[i] < length[least]))
                least = i;
        done[least] = 1;
        for (r = 0; r < sizeof roads / sizeof *roads; r++) {
            const struct road *road = roads + r;
            int other = road->from == (unsigned)least ? (int)road->to : road->to == (unsigned)least ? (int)road->from : -1;
            if (other >= 0 && length[least] + road->length < length[other]) {
                length[other] = length[least] + road->length;
                before[other] = least;
            }
        }
    }
}

static void show_way(const int *before, int to)
{
    if (before[to] >= 0)
        show_way(before, before[to]);
    printf("%c", 'A' + to);
}

int main(void)
{
    unsigned length[TOWNS], sum = 0;
    int before[TOWNS], i, start;
    for (start = A; start < TOWNS; start++) {
        from_one(start, length, before);
        for (i = 0; i < TOWNS; i++) {
            sum += length[i];
            if (start == A) {
                show_way(before, i);
                printf(" %u\n", length[i]);
            }
        }
    }
    printf("%u\n", sum);
    return sum / 2 % 256;
}
