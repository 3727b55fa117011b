/* A machine with registers, whose operations are packed into bit-fields and run by a table of functions. */
int printf(const char *, ...);

struct op {
    unsigned code : 4;
    unsigned to : 3;
    unsigned from : 3;
    signed value : 16;
};

struct state {
    int r[8];
    unsigned at;
    int running;
};

typedef void step(struct state *, struct op);

static void halt(struct state *s, struct op o) { s->running = 0; }
static void set(struct state *s, struct op o) { s->r[o.to] = o.value; }
static void move(struct state *s, struct op o) { s->r[o.to] = s->r[o.from]; }
static void add(struct state *s, struct op o) { s->r[o.to] += s->r[o.from] + o.value; }
static void subtract(struct state *s, struct op o) { s->r[o.to] -= s->r[o.from]; }
static void remainder_of(struct state *s, struct op o) { s->r[o.to] %= s->r[o.from]; }
static void jump_if(struct state *s, struct op o)
{
    if (s->r[o.to])
        s->at += o.value;
}
static void print(struct state *s, struct op o) { printf("r%u = %d\n", (unsigned)o.to, s->r[o.to]); }

static step *const steps[] = { halt, set, move, add, subtract, remainder_of, jump_if, print };

/* the greatest common divisor of r0 and r1 */
static const struct op divisor[] = {
    { 1, 0, 0, 3108 }, { 1, 1, 0, 2002 },
    { 7, 0, 0, 0 }, { 2, 2, 0, 0 }, { 5, 2, 1, 0 }, { 2, 0, 1, 0 }, { 2, 1, 2, 0 }, { 6, 1, 0, -6 },
    { 7, 0, 0, 0 }, { 0, 0, 0, 0 },
};

/* 1 + 2 + .. + 100 */
static const struct op sum[] = {
    { 1, 3, 0, 100 }, { 1, 4, 0, 1 }, { 3, 0, 3, 0 }, { 4, 3, 4, 0 }, { 6, 3, 0, -3 }, { 7, 0, 0, 0 }, { 0, 0, 0, 0 },
};

static int run(const struct op *program)
{
    struct state s = { { 0 }, 0, 1 };
    int count = 0;
    while (s.running) {
        struct op o = program[s.at++];
        steps[o.code](&s, o);
        count++;
    }
    printf("%d steps\n", count);
    return s.r[0];
}

int main(void)
{
    int a = run(divisor), b = run(sum);
    printf("%d bytes an operation\n", (int)sizeof(struct op));
    return a + b / 100;
}
