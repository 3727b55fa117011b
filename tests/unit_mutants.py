#!/usr/bin/env python3
"""Units near those of the profile: which of them break a rule is compared with gcc.

    unit_mutants.py --rows PROGRAM [--count N] [--seed N]

Each text of UNITS is compared whole; then units with one change each at random: a token dropped, doubled, exchanged with the next one, or
replaced by another of the unit or of POOL, or a declaration twice. PROGRAM is that of crates/check_rows: each unit is a row, whose answer is
`typed` where it breaks no rule by itself, and else the first such rule. gcc tells by `-std=c99 -pedantic-errors -fsyntax-only` whether it refuses the
unit. Where the two differ, the difference has to be one of the kinds in KNOWN, each with its reason. Ends with 1 if another one is found, with
the texts of the first ones.
"""

import sys

sys.dont_write_bytecode = True

import argparse
import re
import subprocess
from concurrent.futures import ThreadPoolExecutor
from random import Random

from syntax_mutants import TEXTS, TOKEN, Known

SECONDS = 300
GCC = ["gcc", "-x", "c", "-std=c99", "-pedantic-errors", "-fsyntax-only", "-fno-diagnostics-show-caret", "-"]

# Every declaration, initialiser and statement of C99 without floating types (ISO C99, 6.7 to 6.9).
UNITS = """
int x; int y = 1, *p = &y; extern int z; static int s = sizeof s; int main(void) { return x + y; }
int a[3] = {1, 2, 3}, b[] = {[2] = 1, 2}, c[2][2] = {{1}, {2, 3}}; char t[] = "abc", u[2] = "ab"; int *q = a + 1;
struct p { int x, y; } v = {1, 2}, w = {.y = 1, .x = 2}; struct p *r = &v; int *m = &w.y;
struct s { int a; struct { char c[2]; int d; } in; } o = {1, {"a", 2}}, n = {.in.d = 1, .in.c[1] = 'x'};
union u { int i; char c[4]; } k = {1}, l = {.c = "ab"}; union u *f(void) { return &k; }
struct b { unsigned a : 3, : 2, b : 4; int : 0; int c : 5; } x; int f(struct b *p) { p->a = 2; return p->c++; }
enum e { A, B = 4, C } e = B; enum e g(enum e x) { return x == A ? B : C; } int d[C];
typedef int T, *P, A[2]; typedef struct n N; struct n { N *next; T v; }; A a; P f(N *n) { return &n->v; }
int f(int); int g(void) { return f(1); } static int h(int a, char *b) { return a + *b; } int i(void) { return h(1, "a"); }
int f(); int (*g)(int) = f; int h(void) { return g(1) + (*g)(2); } int f(int a) { return a; }
int f(int n, int a[], int *b, int (*c)[3]) { return a[n] + b[0] + c[1][2]; }
void f(void) { int i; for (i = 0; i < 3; i++) { if (i == 1) continue; if (i) break; } while (i) i--; do i++; while (i < 3); }
int f(int a) { switch (a) { case 1: a++; case 2: { int b = a; return b; } case 'c': break; default: a = 0; } return a; }
int f(int a) { if (a) return 1; else if (!a) return 2; again: a--; if (a > 0) goto again; goto end; { end: ; } return a; }
int f(void) { for (int i = 0, j = 1; i < j; i++) { int i = j; j = i; } for (;;) return 1; }
int f(void) { int a[2] = {1}, b = a[0]; struct { int x; } c = {b}, d = c; c = d; return c.x; }
int f(int x) { { int x = 1; { extern int z; x = z; } } static int c = 1; register int r = x; auto int s = r; return c + s; }
struct s; struct s *p; struct s { struct s *n; }; int f(struct s *a) { return a->n == p; }
int f(void) { struct s { int a; } x = {1}; struct t { struct s b; } y = {x}; return y.b.a; }
void g(int *p, const char *t) { *p = t[0]; p = 0; if (p) ; } void f(void) { int x; g(&x, "a"); (void)x; }
int *f(int a[const]); int g(int a[static 2]); int h(int);
const int c = 1; const int *p = &c; int *const q = 0; int f(const int *a) { return *a + c; }
int x = 1 + 2 * 3, y = sizeof(int) == 4 ? 1 : 2; char *t = "a" "b"; long l = -1L; unsigned u = ~0u; int z[1 + 1];
int *p = (int[]){1, 2}; struct s { int a; } *q = &(struct s){3}; int f(void) { int *r = (int[2]){1}; return r[1] + (struct s){2}.a; }
int f(int a, int b) { a = b; a += b; a <<= 1; a |= b & 1; return a, b; } int g(void) { return f(1, 2) ? -f(3, 4) : !f(5, 6); }
int f(unsigned u, long l, char c) { return u < l ? u * c : l % 3 + (c >> 1) - (u ^ 1); }
static int f(void); static int g(void) { return f(); } static int f(void) { return 1; } int main(void) { return g(); }
typedef int F(int); F f; int f(int a) { return a; } F *g = f; int h(F *a) { return a(1); }
int printf(const char *, ...); int main(void) { return printf("%d", 1, 2); }
int f(int a) { return sizeof a + sizeof(int[3]) + sizeof(struct { char c; }); }
void *p; char *c; int f(void) { p = c; c = p; return p == c && c != 0 || !p; }
int f(int *a, int *b) { return a - b + (a < b) + (a + 1 == b) + a[1] + *(b - 1); }
enum { X = 1, Y = X + 1 }; int f(int a) { switch (a) { case X: return 1; case Y: return 2; } return X; }
int f(int a) { while (a) { switch (a) { case 1: continue; default: break; } a--; } return a; }
struct p { int x; }; struct p f(struct p a) { a.x++; return a; } int g(void) { struct p a = {1}; return f(a).x; }
int a[2][3]; int (*p)[3] = a; int *q = a[1]; int f(void) { return p[1][2] + *q + sizeof a[0]; }
_Bool b = 2; int f(_Bool c) { return c + !b; } signed char s; unsigned short u; unsigned long long l;
int f(int n) { int r = 1; while (n > 1) r *= n--; return r; } int main(void) { return f(5) != 120; }
extern int a[]; int f(void) { return a[1]; } int a[2] = {1, 2}; int g(void) { return sizeof a; }
int a[]; int a[3]; int b[]; extern int c; int c; static int d; static int d = 1;
""".strip().split("\n") + [" ".join(text.split()) for text in TEXTS.values()]

POOL = """int char long unsigned void const static extern typedef struct union enum return break continue case default goto if while sizeof
* & + - ! ~ = == < , ; ( ) { } [ ] . -> ? : 0 1 2 3u 'a' "abc" x a f p s absent""".split()


KNOWN = [
    Known("the profile's own rules", r"(O\d+|M\d|X\d)$", r"^$", "the profile leaves it out"),
    Known(
        "declarations that declare nothing",
        "typed",
        r"useless type name in empty declaration|declaration does not declare anything",
        "no rule of the profile speaks of them (6.7p2)",
    ),
    Known(
        "an element of a string literal among constants",
        "K17",
        r"^$",
        "gcc folds it, as 6.6p10 lets it do; an integer constant expression has no such operand (6.6p6)",
        r'" \[ \d+ \]',
    ),
]


def gcc_says(unit):
    """The first error of gcc, or an empty text."""
    done = subprocess.run(GCC, input=unit + "\n", capture_output=True, text=True, timeout=SECONDS)
    errors = [line for line in done.stderr.split("\n") if "error: " in line]
    return errors[0].split("error: ", 1)[1] if errors else ""


def rows_say(program, units):
    """The answer of each row: `typed`, or the rule with its line."""
    rows = "".join(f"unit {one}\n" for one in units)
    done = subprocess.run([program], input=rows, capture_output=True, text=True, timeout=SECONDS)
    answers = done.stdout.split("\n")[: len(units)]
    if done.returncode != 0 or len(answers) != len(units):
        sys.exit(f"the program of the rows ends with {done.returncode}: {done.stdout[-200:]}{done.stderr[-200:]}")
    return [answer.split(" on line ")[0] for answer in answers]


def changed(random, tokens):
    """The tokens with one change."""
    at = random.randrange(len(tokens))
    match random.choice(["drop", "double", "exchange", "replace", "replace", "replace", "put in", "twice"]):
        case "drop":
            return tokens[:at] + tokens[at + 1 :]
        case "double":
            return tokens[: at + 1] + tokens[at:]
        case "exchange":
            return tokens[:at] + tokens[at + 1 : at + 2] + tokens[at : at + 1] + tokens[at + 2 :]
        case "replace":
            other = random.choice(tokens if random.random() < 0.6 else POOL)
            return tokens[:at] + [other] + tokens[at + 1 :]
        case "put in":
            return tokens[:at] + [random.choice(POOL)] + tokens[at:]
        case "twice":
            ends = [k for k, token in enumerate(tokens) if token in (";", "}")]
            return tokens + tokens[: random.choice(ends) + 1] if ends else tokens


def mutants(random, count):
    texts = [" ".join(TOKEN.findall(unit)) for unit in UNITS]
    made = list(texts)
    while len(made) < len(texts) + count:
        tokens = TOKEN.findall(random.choice(UNITS))
        for _ in range(random.choice([1, 1, 1, 2])):
            tokens = changed(random, tokens) or tokens
        made.append(" ".join(tokens))
    return made


def kind_of(answer, says, unit):
    """The kind of a difference, or None."""
    for known in KNOWN:
        if re.match(known.answer, answer) and re.search(known.says, says) and re.search(known.holds, unit):
            return known
    return None


def main():
    words = argparse.ArgumentParser(description=__doc__)
    words.add_argument("--rows", required=True)
    words.add_argument("--count", type=int, default=2000)
    words.add_argument("--seed", type=int, default=1)
    words = words.parse_args()
    units = mutants(Random(words.seed), words.count)
    answers = rows_say(words.rows, units)
    with ThreadPoolExecutor(4) as pool:
        said = list(pool.map(gcc_says, units))
    refused = sum(1 for one in said if one)
    seen, differing = {}, []
    for unit, answer, says in zip(units, answers, said):
        if (answer == "typed") == (says == ""):
            continue
        known = kind_of(answer, says, unit)
        if known:
            seen.setdefault(known.name, []).append(unit)
        else:
            differing.append((unit, answer, says))
    print(f"{len(units)} units, {refused} refused by gcc, {sum(map(len, seen.values()))} differ in {len(seen)} known ways, {len(differing)} otherwise")
    for unit, answer, says in differing[:20]:
        print(f"  {answer} | {says or 'gcc refuses nothing'} | {unit}")
    sys.exit(1 if differing else 0)


if __name__ == "__main__":
    main()
