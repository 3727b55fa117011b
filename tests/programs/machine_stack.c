/* A machine with a stack runs three programs of its own. */
int printf(const char *, ...);

enum code { HALT, PUSH, ADD, SUBTRACT, MULTIPLY, COPY, SWAP, DROP, OVER, JUMP, JUMP_IF, PRINT };

struct op {
    enum code code;
    int value;
};

struct machine {
    int stack[32];
    int top;
    long steps;
};

static void push(struct machine *m, int value)
{
    m->stack[m->top++] = value;
}

static int pop(struct machine *m)
{
    return m->stack[--m->top];
}

static int run(const struct op *program)
{
    struct machine m;
    const struct op *at = program;
    int a, b;
    m.top = 0;
    m.steps = 0;
    for (;;) {
        const struct op *op = at++;
        m.steps++;
        switch (op->code) {
        case HALT:
            printf("after %ld steps\n", m.steps);
            return m.top ? pop(&m) : 0;
        case PUSH: push(&m, op->value); break;
        case ADD: b = pop(&m); a = pop(&m); push(&m, a + b); break;
        case SUBTRACT: b = pop(&m); a = pop(&m); push(&m, a - b); break;
        case MULTIPLY: b = pop(&m); a = pop(&m); push(&m, a * b); break;
        case COPY: a = pop(&m); push(&m, a); push(&m, a); break;
        case SWAP: b = pop(&m); a = pop(&m); push(&m, b); push(&m, a); break;
        case OVER: push(&m, m.stack[m.top - 2]); break;
        case DROP: pop(&m); break;
        case JUMP: at = program + op->value; break;
        case JUMP_IF: if (pop(&m)) at = program + op->value; break;
        case PRINT: printf("%d ", pop(&m)); break;
        }
    }
}

static const struct op factorial[] = {
    { PUSH, 1 }, { PUSH, 10 },
    { COPY, 0 }, { JUMP_IF, 5 }, { JUMP, 12 },
    { COPY, 0 }, { PRINT, 0 }, { SWAP, 0 }, { OVER, 0 }, { MULTIPLY, 0 }, { SWAP, 0 }, { PUSH, 1 },
    { SUBTRACT, 0 }, { COPY, 0 }, { JUMP_IF, 5 }, { DROP, 0 }, { HALT, 0 },
};

static const struct op pairs[] = {
    { PUSH, 0 }, { PUSH, 1 }, { SWAP, 0 }, { OVER, 0 }, { ADD, 0 }, { COPY, 0 }, { PRINT, 0 }, { COPY, 0 }, { PUSH, 300 },
    { SUBTRACT, 0 }, { COPY, 0 }, { MULTIPLY, 0 }, { PUSH, 4489 }, { SUBTRACT, 0 }, { JUMP_IF, 2 }, { HALT, 0 },
};

int main(void)
{
    int f = run(factorial), p = run(pairs);
    printf("%d %d\n", f, p);
    return p & 255;
}
