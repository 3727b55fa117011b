/* An interpreter of a small language of eight letters over a tape. */
int printf(const char *, ...);
int putchar(int);
int getchar(void);

enum { CELLS = 100, DEPTH = 16 };

static int run(const char *program)
{
    static unsigned char tape[CELLS];
    const char *open[DEPTH];
    int depth = 0, at = 0, steps = 0, c;
    for (; *program; program++, steps++)
        switch (*program) {
        case '>': at++; break;
        case '<': at--; break;
        case '+': tape[at]++; break;
        case '-': tape[at]--; break;
        case '.': putchar(tape[at]); break;
        case ',':
            c = getchar();
            tape[at] = c < 0 ? 0 : c;
            break;
        case '[':
            if (tape[at])
                open[depth++] = program;
            else {
                int nested = 1;
                while (nested > 0) {
                    program++;
                    nested += (*program == '[') - (*program == ']');
                }
            }
            break;
        case ']':
            if (tape[at])
                program = open[depth - 1];
            else
                depth--;
        }
    return steps;
}

int main(void)
{
    int steps = run("++++++++[>++++[>++>+++>+++>+<<<<-]>+>+>->>+[<]<-]>>.>---.+++++++..+++.>>.<-.<.+++.------.--------.>>+.>++.");
    steps += run(">>>>>>>>>>,[>,]<[.<]");
    putchar('\n');
    printf("%d\n", steps);
    return 0;
}
