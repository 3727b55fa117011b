/* Names that hide others, objects that stay, and literals of records and arrays. */
int printf(const char *, ...);

typedef int number;
extern number shared;
static int hidden = 1;

static int next(void)
{
    static int count = 10;
    static int *const at = &count;
    return (*at)++;
}

struct point { int x, y; };

static int sum(const int *list, int count)
{
    int all = 0;
    while (count--)
        all += list[count];
    return all;
}

static struct point moved(struct point p, int x, int y)
{
    p.x += x;
    p.y += y;
    return p;
}

static int shadows(int hidden)
{
    int result = hidden;
    {
        int hidden = result * 2;
        result += hidden;
        {
            extern int shared;
            typedef struct { number number; } hidden;
            hidden inner = { shared };
            result += inner.number;
        }
    }
    return result;
}

int main(void)
{
    struct point p = { 1, 2 }, *q = &(struct point){ .y = 5 };
    int i, turns = 0;
    for (int i = 0; i < 3; i++)
        turns += next();
    i = next();
    p = moved(moved(p, 10, 20), q->x, q->y);
    printf("%d %d\n", turns, i);
    printf("%d %d\n", p.x, p.y);
    printf("%d\n", sum((int[]){ 1, 2, 3, [5] = 9 }, 6));
    printf("%d %d\n", shadows(4), hidden);
    printf("%d\n", moved((struct point){ 3 }, 1, 1).x);
    do {
        static int inside;
        int fresh = 5;
        inside += fresh++;
        i = inside;
    } while (i < 30);
    return shared + i;
}

number shared = 100;
