"""Worked jobs of runs.py: files, the words of a job over them, and what the program has to show. None of it was taken from the program: the units of
UNITS end so by ISO C99, and gcc's programs show the same (`runs.py --gcc-only`); the reports of the others are those of the README's table and of
docs/PROFILE.md.
"""

from dataclasses import dataclass


@dataclass(frozen=True)
class Shown:
    """What a program wrote to standard output and standard error, and its status."""

    written: bytes
    report: str
    status: int


@dataclass(frozen=True)
class Job:
    """Files by their names, the words of a job over them, its input, and what it has to show."""

    title: str
    files: tuple
    words: tuple
    wanted: Shown
    given: bytes = b""


def ended(status, written=b""):
    return Shown(written, f"c2rs: ended {status}\n", 0)


def told(status, report, written=b""):
    return Shown(written, report + "\n", status)


def run_c(title, text, wanted, options=(), given=b"", name="a.c"):
    """A run of one unit."""
    return Job(title, ((name, text),), ("run-c", *options, name), wanted, given)


def choices(count):
    """A chain of so many tests of 150."""
    tests = " else ".join(f"if (n == {k}) return {k};" for k in range(count))
    return f"int main(void) {{ int n = 150; {tests} else return {count}; }}"


DUFF = """int putchar(int);
char a[] = "0123456789";
int main(void) {
    char *p = a;
    int n = 3, c = 10;
    switch (c % 4) {
    case 0: do { putchar(*p++);
    case 3:      putchar(*p++);
    case 2:      putchar(*p++);
    case 1:      putchar(*p++);
            } while (--n > 0);
    }
    return 0;
}
"""

LIST = """# 0 "list.c"
# 0 "<built-in>"
# 0 "<command-line>"
# 1 "/usr/include/stdc-predef.h" 1 3 4
# 0 "<command-line>" 2
# 1 "list.c"
extern void *malloc(unsigned long);
extern void free(void *);
int printf(const char *, ...);
struct node { int v; struct node *next; };
int main(void) {
    struct node *head = 0, *p, *q;
    int i, sum = 0;
    for (i = 0; i < 500; i++) {
        p = malloc(sizeof *p);
        if (!p) { printf("full at %d\\n", i); return 1; }
        p->v = i; p->next = head; head = p;
    }
    p = 0;
    while (head) { q = head->next; head->next = p; p = head; head = q; }
    while (p) { sum += p->v; q = p->next; free(p); p = q; }
    printf("%d\\n", sum);
    return 0;
}
"""

# The same of 500,000 nodes, whose sum takes a long.
LONG_LIST = (LIST.replace("int i, sum = 0;", "int i; long sum = 0;").replace("i < 500;", "i < 500000;").replace('"%d\\n", sum', '"%ld\\n", sum'))

# Calls that nest 100,000 deep.
DEEP = "int f(int n) { return n ? f(n - 1) + 1 : 0; } int main(void) { return f(100000); }"

# A loop that takes more than 10 million steps.
LOOP = """int main(void) {
    int i = 0, sum = 0;
    while (i < 1000000) {
        sum = sum + 3;
        i = i + 1;
    }
    return sum != 3000000;
}
"""

ORDER = "int x = 1; int f(void) { x = 5; return 10; } int main(void) { return x + f(); }"
RECORDS = "struct p { int x, y; }; struct p f(int a) { struct p r; r.x = a; return r; } int main(void) { struct p q = f(7), s; s = q; return s.x; }"
STRAIGHT = "int putchar(int); int x = 60; int main(void) { x = x + putchar(x + 5); return x - 125; }"

UNITS = (
    run_c("a typedef name is hidden", "typedef int T; int main(void) { int T = 3; return (T)-1; }", ended(2)),
    run_c("unsigned numbers wrap", "int main(void) { return (unsigned)-1 + 1u == 0; }", ended(1)),
    run_c("a comma is a sequence point", "int main(void) { int x = 1; x = (x++, 5); return x; }", ended(5)),
    run_c("Duff's device", DUFF, ended(0, b"0123456789")),
    run_c("a cycle with two entries",
          "int putchar(int); int main(void) { int n = 0; if (n) goto b; a: putchar('a'); b: putchar('b'); n = n + 1; if (n < 3) goto a; return n; }",
          ended(3, b"ababab")),
    run_c("a cycle with one entry",
          "int putchar(int); int main(void) { int n = 0; a: putchar('a'); b: putchar('b'); n = n + 1; if (n < 3) goto a; return n; }",
          ended(3, b"ababab")),
    run_c("designators and braces",
          "int a[5] = { [3] = 1, 2, [0] = 9 }; struct { int x[2]; int y; } s[2] = { { { 1 }, 2 }, 3 }; "
          "int main(void) { return a[0] + a[1] + a[3] + a[4] + s[0].x[0] + s[0].x[1] + s[0].y + s[1].x[0]; }", ended(18)),
    run_c("the count of printf", 'int printf(const char *, ...); int main(void) { return printf("%d %s\\n", \'A\', "x"); }', ended(5, b"65 x\n")),
    run_c("300 tests", choices(300), ended(150)),
    run_c("names of Rust", "int main(void) { int fn = 1, self = 2, x = 3; { int x = 4; fn = fn + x; } return fn + self + x; }", ended(10)),
    run_c("a list that is turned round", LIST, ended(0, b"124750\n"), name="list.c"),
    run_c("bit-fields of what was allocated",
          "void *malloc(unsigned long); struct s { unsigned a : 3; unsigned b : 5; }; "
          "int main(void) { struct s *p = malloc(sizeof *p); if (!p) return 99; p->a = 9; p->b = 1; return p->a * 10 + p->b; }", ended(11)),
    run_c("input is copied",
          "int getchar(void); int putchar(int); int main(void) { int c; while ((c = getchar()) != -1) putchar(c); return 0; }",
          ended(0, b"hi\n"), given=b"hi\n"),
    run_c("structures are returned and copied", RECORDS, ended(7)),
    run_c("a function that is neither defined nor called", "int f(void); int main(void) { return 0; }", ended(0)),
    run_c("a straight program", STRAIGHT, ended(0, b"A")),
)

OTHERS = (
    run_c("an order of operands", ORDER, ended(11)),
    run_c("another order", ORDER, ended(15), ("--order", "1")),
    run_c("a conflict", "int main(void) { int i = 1; i = i++ + 1; return i; }", told(5, "a.c:1: undefined: U1 unsequenced conflict")),
    run_c("a conflict of a sum", "int x; int main(void) { return x + (x = 1); }", told(5, "a.c:1: undefined: U1 unsequenced conflict")),
    run_c("600 tests", choices(600), told(1, "a.c:1: S1: no derivation")),
    run_c("a quotient that isn't representable", "int main(void) { int a = -2147483647 - 1, b = -1; return a / b; }",
          told(5, "a.c:1: undefined: U3 division")),
    run_c("a member without a value", RECORDS.replace("return s.x;", "return s.y;"), told(5, "a.c:1: undefined: U7 unset bits read")),
    run_c("a call outside the profile", "void f(int *); int main(void) { f(0); return 0; }",
          told(1, "a.c:1: L4: external function outside the profile")),
    run_c("a conversion without its argument", 'int printf(const char *, ...); int main(void) { return printf("%d"); }',
          told(13, "c2rs: call refused: printf")),
    run_c("a call without its argument", "int f(int a) { return 0; } int main(void) { int (*p)() = f; return p(); }",
          told(5, "a.c:1: undefined: U13 call")),
    Job("a file that isn't there", (), ("run-c", "no.c"), told(3, "c2rs: cannot read no.c")),
)

CARGO = '[package]\nname = "translated"\nversion = "0.0.0"\nedition = "2021"\n'
MAIN = """#![allow(unconditional_panic, arithmetic_overflow)]
mod a;
fn main() {
    unsafe {
        crate::a::run_static_initializers();
        std::process::exit(crate::a::main_0());
    }
}
"""
PUTCHAR = 'extern "C" {\n    pub fn putchar(a0: i32) -> i32;\n}\n'


def crate(body, head=""):
    """The files of a crate of one module, in which `main_0` has this body."""
    module = f'{head}pub unsafe extern "C" fn main_0() -> i32 {{\n{body}}}\npub unsafe extern "C" fn run_static_initializers() {{\n}}\n'
    return (("out/Cargo.toml", CARGO), ("out/src/main.rs", MAIN), ("out/src/a.rs", module))


ENDLESS = crate("    loop {\n        crate::a::putchar(97i32);\n    }\n    return 0i32;\n", PUTCHAR)

CRATES = (
    Job("a crate without its main", (("out/Cargo.toml", CARGO), ("out/src/main.rs", "")), ("run-rust", "out"),
        told(11, "c2rs: not Rust: out/src/main.rs:1")),
    Job("a loop of calls in Rust", ENDLESS, ("run-rust", "--steps", "5", "out"), told(7, "c2rs: steps used: 5", b"a")),
    Job("an overflow in Rust", crate("    return 2147483647i32 + 1i32;\n"), ("run-rust", "out"), told(6, "c2rs: wrong: overflow")),
)

# The unit of each, and of the crate that is written of it: both runs show the same.
BOTH = ((STRAIGHT, ended(0, b"A")), ("int main(void) { return 42; }", ended(42)))

# A loop of calls on each side with 1,000 steps: what one writes is the beginning of what the other writes.
LOOPS = (run_c("a loop of calls", "int putchar(int); int main(void) { for (;;) putchar('a'); }", told(7, "c2rs: steps used: 1000"), ("--steps", "1000")),
         Job("a loop of calls in Rust, longer", ENDLESS, ("run-rust", "--steps", "1000", "out"), told(7, "c2rs: steps used: 1000")))
