/* A unit with every declaration, initialiser, statement and expression of the profile. It breaks no rule, and ends with 0. */
extern int printed;
static int counted = 1;
int tentative;
int tentative;
const int fixed = 3;
char text[] = "abc" "d", two[2] = "ab", *words = "words";
int list[4] = {1, [3] = 4, [1] = 2}, table[2][3] = {{1}, {2, 3}}, (*row)[3] = table, *element = &list[1];
typedef unsigned long Size;
typedef int Choice(int, int);
enum colour { RED, GREEN = 4, BLUE } shade = BLUE;
struct point { int x, y; } origin, corner = {.y = 2, .x = 1}, *near = &corner;
struct node { struct node *next; union { int whole; char bytes[4]; } value; };
struct flags { unsigned low : 3, : 2, high : 4; int : 0; int sign : 5; } flags = {1, 2, -3};
union either { long wide; struct point both; } either = {.both = {1, 2}};
int *made = (int[]){1, 2, 3};
struct point *other = &(struct point){4, 5};
Choice add, *chosen = add;
static int later(int count);
void *malloc(unsigned long size);
void free(void *block);

int add(int left, int right)
{
    return left + right;
}

struct point moved(struct point from, int by)
{
    from.x += by;
    from.y -= by;
    return from;
}

int first(int count, const int values[], int (*rows)[3])
{
    return count > 0 ? values[0] : rows[0][0];
}

static int switched(int value)
{
    switch (value) {
    case 0:
        return 1;
    case GREEN: {
        int inner = value;
        value = inner + 1;
    }
    case BLUE:
        value++;
        break;
    default:
        value = -value;
    }
    return value;
}

static int looped(int count)
{
    int sum = 0, i;
    for (i = 0; i < count; i++) {
        if (i == 2)
            continue;
        else if (i > 6)
            break;
        sum += i;
    }
    for (int j = 0, k = 1; j < k; j++)
        ;
    while (count-- > 0)
        sum ^= count;
    do
        --sum;
    while (sum > 100);
again:
    if (sum > 50) {
        sum /= 2;
        goto again;
    }
    return sum;
}

static int operated(int a, unsigned b, long c, char d)
{
    int e = a * 2 / 3 % 5 + (a << 1) - (a >> 1);
    e = a < e || a <= e && a > 1 || a >= 2 || a == 3 || a != 4;
    e = (a & 1) | (a ^ 2) | ~a;
    e += !a, e -= -a, e *= +a, e <<= 1, e >>= 1, e &= 7, e |= 1, e %= 9;
    b = b ? b : ~0u;
    c = c < b ? (long)d : c + d;
    return (int)(sizeof e + sizeof(int[3]) + c) > 0 ? e : (int)b;
}

static int pointed(int *at, void *any)
{
    int *same = any;
    char *byte = (char *)any;
    *at = 1;
    at[0] += 2;
    ++*at;
    return same == at && byte != 0 && at - same == 0 && at + 1 > same ? *at : 0;
}

static int later(int count)
{
    static int calls;
    register int kept = count;
    auto int own[2] = {1}, zero = own[1];
    struct { int a; struct point p; } local = {1, {.y = 2}}, copy = local;
    struct point *literal = &(struct point){kept, zero};
    copy.p = moved(*literal, near->y);
    flags.low = copy.a;
    flags.sign++;
    calls++;
    return calls + copy.p.x + flags.low + flags.sign;
}

int main(void)
{
    struct node *node = malloc(sizeof *node);
    _Bool known = node != 0;
    if (!known)
        return 0;
    node->next = 0;
    node->value.whole = chosen(1, 2) + (*chosen)(3, 4) + first(2, list, row);
    {
        extern int tentative;
        tentative = node->value.whole;
    }
    (void)operated(1, 2, 3, 'x');
    shade = RED, tentative = switched(shade) + looped(9) + pointed(element, &list[1]) + later(3);
    free(node);
    return 0;
}

int printed;
