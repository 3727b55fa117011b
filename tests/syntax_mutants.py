#!/usr/bin/env python3
"""Units near C99: which of them have a syntax tree is compared with gcc.

    syntax_mutants.py --rows PROGRAM [--list]

The units are the examples and the texts below, whole; with one token dropped, doubled or exchanged with the next one, every
token of each; and, at random, with one token put in or replaced by another, or two exchanged. PROGRAM is the program of the
rows: each unit is a row of its stage `depth`, whose answer is a number where the unit has a tree, and S1 where it has none. What
gcc calls a syntax error is S1, and so is what it reads as an extension to the grammar; anything else has a tree, though gcc
may refuse it for what it means. Where the two differ the difference has to be one of the kinds in KNOWN, each with its reason.
Ends with 1 if any other difference is found, with the texts of the first ones; --list shows one unit of each known kind too.
"""

import sys

sys.dont_write_bytecode = True

import argparse
import os
import re
import subprocess
from collections import Counter
from concurrent.futures import ThreadPoolExecutor
from dataclasses import dataclass
from pathlib import Path
from random import Random

SECONDS = 120
GCC = ["gcc", "-x", "c", "-std=c99", "-pedantic-errors", "-fsyntax-only", "-fno-diagnostics-show-caret", "-"]

# C99 without floating types: every statement, specifier and form of a declarator (ISO C99, 6.5 to 6.9).
TEXTS = {
    "statements": """
        int f(int a) {
            int b = a;
            ;
            { b; }
            if (a) b = 1;
            if (a) b = 2; else b = 3;
            if (a) if (b) b = 4; else b = 5;
            while (a) b--;
            do { b++; } while (b < 3);
            for (;;) break;
            for (a = 0; a < 3; a++) continue;
            for (int i = 0, j = 1; i < j; i++, j--) ;
            switch (a) { case 1: case 2 + 3: b = 6; break; default: b = 7; }
            goto end;
            end: return b;
        }
        void g(void) { return; }""",
    "operators": """
        int x, y, z, *p, a[3];
        int f(int c, int d) {
            x = y = c; x += 1; x -= 2; x *= 3; x /= 4; x %= 5; x <<= 6; x >>= 7; x &= 8; x ^= 9; x |= 10;
            y = x || y && z | c ^ d & x == y < z << c + d * x;
            y = x * y / z % c - d >> x > y <= z >= c != d;
            z = -x + +y - ~z * !c; p = &x; *p = 1; ++x; --y; x++; y--;
            a[0] = a[1 + 1]; f(x, (y, z)); f(1, f(2, 3));
            x = c ? d : y ? z : x; x = c ? d, y : z; x, y, z;
            return sizeof x + sizeof(int) + sizeof(x) + sizeof a[0];
        }""",
    "casts": """
        typedef int T;
        struct S { int a; T b; };
        int f(int x, struct S *s) {
            x = (int)x; x = (T)-x; x = (char)(long)x; x = sizeof(T *); x = sizeof(int (*)[3]); x = sizeof(T (*)(T));
            x = (struct S){ 1, 2 }.a; s = &(struct S){ .b = 3 }; s->a = s[0].b;
            int *p = (int []){ 1, 2, 3 }; T *q = (T *)p; q = (const T *const)p ? q : 0;
            return (T)*p + *q;
        }""",
    "specifiers": """
        static int a; extern char b; typedef unsigned short U; inline static long c(void) { return 0; }
        signed char d; short int e; unsigned g; long long int h; unsigned long long i; _Bool j; const int k = 1;
        void *restrict l; long unsigned int const static m; U n; const U *o;
        int f(register int x) { auto int y = x; register int z = y; static int w; extern int a; return z + w; }
        int typedef V; V q;""",
    "records": """
        struct S { int x, *y; const unsigned a : 3, : 0, b : 1 + 1; struct { char c; } s; union { long d; int e; } u; };
        struct S v, *w = &v; union U; union U { int a; struct S s; }; struct S a[2];
        enum E { A, B = 2, C = A ? B : 1, }; enum E e; enum { D } g;
        struct N { struct N *next; int (*f)(struct N *, int); int t[2][3]; } n;
        int f(void) { struct S { int z; } l; l.z = 1; struct M; enum { P, Q } p = P; return l.z + w->u.e + p; }""",
    "declarators": """
        int *p, **q, *const r = 0, a[3], b[2][3], *c[3], (*d)[3], (e), *(*g);
        int f(void), *h(int, char *), (*i)(void), (*j(int x))[3], (*(*k)(int))(int), (*l[3])(int, ...), m();
        int n(int a[], int b[3], int c[static 3], int d[const], int e[static const 3], int f[const static 3], int g[*]);
        int u(int n, int h[n], int (*i)[n + 1]);
        int o(int, int *, int [], int [3], int (*)(int), int (int), int *(*)[2], char *const *, int [static 3], int [*]);
        int s(const char *restrict format, ...);
        int t(int (*x)(int y), int (z)) { return x(z); }""",
    "initialisers": """
        struct P { int x, y; struct { int z[2]; } w; };
        int a[] = { 1, 2, 3 }, b[2][2] = { { 1, 2 }, { 3 }, }, c = { 1 }, d = 1;
        struct P p = { 1, 2, { { 3, 4 } } }, q = { .x = 1, .w.z[1] = 2, .y = 3 }, r[2] = { [1].x = 1, [0] = { 2 } };
        char s[] = "a" "b", *t = "c", u[3] = { 'a', '\\n', '\\0' };
        int e[3] = { [1 + 1] = 1, [0] = 2, };
        int *f = (int []){ 1, 2 };
        int main(void) { int l[] = { d, d + 1 }; struct P m = p; return l[0] + m.x; }""",
    "scopes": """
        typedef int T; typedef struct T { T T; } R;
        int f(T a, int T) { return (T) - a; }
        int g(void) { int x = (T)-1; { int T = 3; x = (T)-1; } T y = (T)+1; return x + y; }
        int z(int (T)); int h(int q(T), int (*p)(T)) { R r; r.T = 1; goto T; T: return r.T; }
        enum { A = sizeof(T), B = (T)1 };
        int i(void) { for (T T = 0; T < 3; T++) ; T x = 1, T = 2; return x + T; }
        int j(void) { if (sizeof(enum { T })) return (T)-1; return (T)-1; }
        int k(T), l(const T), m(T *T); const T c = 1; T n(T (T));""",
    "list": """
        int putchar(int);
        typedef unsigned long size;
        struct node { struct node *next; unsigned long key; char name[16]; };
        static struct node *free_list;
        static int insert(struct node **list, unsigned long key, const char *name) {
            struct node *n = free_list;
            if (n == 0 || key >= 0x7fffffffUL) return -1;
            n->key = (key << 3) ^ 'x'; n->next = *list; *list = n;
            for (int i = 0; i < 16; i++) n->name[i] = name ? name[i] : "a\\tb"[i % 3];
            while (n && n->key != key) n = n->next;
            return n->key >>= 2, 0;
        }""",
    "functions": """
        int f(), g(void), (*h)(int) = 0;
        static int (i)(int a) { return a; }
        int (*j(int a))(int) { return a ? &i : i; }
        int (*k(void))[2] { static int a[2]; return &a; }
        void l(int n, int a[n], int (*b)[n]) { a[0] = (*b)[0]; }
        void m(void (*n)(void)) { n(); (*n)(); (n)(); }
        int main(void) { int o(int); int p = f() + f(1, 2) + j(1)(2) + (*k())[0]; return p; }""",
    "switches": """
        enum color { RED, GREEN = 1 << 2, BLUE };
        int f(enum color c, int n) {
            switch (c) {
            case RED: n++;
            case GREEN: { n--; break; }
            case BLUE: if (n) case 7: n = 1; else default: n = 2;
            }
            do if (n) continue; else break; while (n--);
            for (int i = n; ; ) if (i--) goto out; else for (;;) { out: return n; }
        }""",
    "literals": """
        int a = 1, b = 0x1fU, c = 017, e = 'a', g = '\\377', h = '\\'';
        long d = 1L, i = 2147483648; unsigned long j = 1UL, k = 0xffffffffffffffff;
        long long l = 1LL; unsigned long long m = 1ULL;
        char *s = "a" "b\\n" "\\"c\\"", t[] = "", u <: 2 :> = <% 1, 2 %>;
        int n = sizeof "abc" + sizeof 'a' + "xyz"[1];""",
    "types": """
        typedef int A[3], *B, C(int), (*D)(C *);
        A a; B b; C c; D d = 0; typedef const struct { A a; B b; } E;
        typedef enum { F, G } H; H h(E *e, A i, C j) { return e->a[0] == j(i[1]) ? F : G; }
        int k(void) { typedef char A; A l = sizeof(A); return sizeof(E) + (A)l + sizeof(int [sizeof(A)]); }""",
    "small": "int x;",
}

TOKEN = re.compile(
    r'"(?:[^"\\]|\\.)*"|\'(?:[^\'\\]|\\.)*\'|\w+'
    r'|\.\.\.|<<=|>>=|->|\+\+|--|<<|>>|[<>=!]=|&&|\|\||[-*/%+&^|]=|<:|:>|<%|%>|[^\s\w]'
)

# What is put in, or in the place of another token.
POOL = """auto break case char const continue default do else enum extern for goto if inline int long register restrict
return short signed sizeof static struct switch typedef union unsigned void while _Bool
[ ] ( ) { } . -> ++ -- & * + - ~ ! / % << >> < > <= >= == != ^ | && || ? : ; ... = *= <<= ,
x f T S R A 1 'c' "s" """.split()

# What gcc says where no derivation is.
SYNTAX = [
    r"expected ",
    r"unknown type name ",
    r"'else' without a previous 'if'",
    r"a label can only be part of a statement and a declaration is not a statement",
]

# What gcc says where it reads more than the grammar of C99, and the reason why there is no derivation.
EXTENSIONS = {
    r"ISO C forbids an empty translation unit": "a unit has an external declaration (6.9)",
    r"ISO C does not allow extra ';' outside of a function": "a declaration has specifiers (6.7)",
    r"ISO C forbids nested functions": "a definition of a function is no part of a block (6.8.2)",
    r"ISO C forbids empty initializer braces": "a list of initialisers has one (6.7.8)",
    r"ISO C forbids omitting the middle term of a '\?:' expression": "a condition has three operands (6.5.15)",
    r"ISO C forbids braced-groups within expressions": "a block is no expression (6.5.1)",
    r"braced-group within expression allowed only inside a function": "a block is no expression (6.5.1)",
    r"extra semicolon in struct or union specified": "a declaration of members has specifiers (6.7.2.1)",
    r"no semicolon at end of struct or union": "a declaration of members ends with a semicolon (6.7.2.1)",
    r"(struct|union) has no members": "braces of a record hold a member (6.7.2.1)",
    r"empty enum is invalid": "braces of an enumeration hold an enumerator (6.7.2.2)",
    r"ISO C99 doesn't support unnamed structs/unions": "a declaration of members has a declarator (6.7.2.1)",
    r"ISO C forbids member declarations with no members": "a declaration of members has a declarator (6.7.2.1)",
    r"declaration does not declare anything": "a declaration of members has a declarator (6.7.2.1)",
    r"data definition has no type or storage class": "a declaration has specifiers (6.7)",
    r"ISO C requires a named argument before '...'": "`...` stands behind a parameter (6.7.5)",
    r"obsolete use of designated initializer": "a designation ends with `=` (6.7.8)",
    r"ISO C forbids specifying range of elements to initialize": "a designator has one expression (6.7.8)",
    r"range expressions in switch statements are non-standard": "a case has one expression (6.8.1)",
    r"ISO C forbids 'goto \*expr;'": "a `goto` has an identifier (6.8.6.1)",
    r"taking the address of a label is non-standard": "`&&` is no unary operator (6.5.3)",
    r"ISO C forbids forward parameter declarations": "parameters are separated by commas (6.7.5)",
    r"label at end of compound statement": "a statement stands behind a label (6.8.1)",
}


@dataclass(frozen=True)
class Known:
    """A kind of difference: the answer, what gcc says then and what the unit holds, and the reason."""

    name: str
    answer: str
    says: str
    reason: str
    holds: str = ""


# A binary operator, its right operand, and an operator of assignment; what stands before a `*` is no type.
BINARY_ASSIGNED = (
    r"""[\w)\]}"'](?<! int)(?<! char)(?<! void)(?<! const)(?<! node)(?<! [TSU]) (?:[*/%<>&^|+-]|<<|>>|[<>=!]=|&&|\|\|) """
    r"""(?:[*&+~!-] |-- |\+\+ )*\w+(?: (?:\.|->) \w+| \[ [^][]* \])* (?:[-+*/%&^|]|<<|>>)?= """
)

KNOWN = [
    Known(
        "definitions without specifiers",
        "S1",
        r"return type defaults to 'int'",
        "a definition of a function has specifiers (6.9.1); gcc says the same where there are some, but no type among them",
    ),
    Known(
        "two type specifiers",
        "tree",
        r"expected ';', identifier or '\(' before '\w+'",
        "grammar allows any specifiers beside a record or an enumeration (6.7); that they go together is a constraint (6.7.2p2)",
    ),
    Known(
        "assignments to what is no lvalue",
        "S1",
        r"lvalue required as left operand of assignment",
        "the operand on the left of an assignment is a unary expression (6.5.16); gcc reads any",
    ),
    Known(
        "assignments to a binary expression",
        "S1",
        r"invalid operands to binary|'\w+' undeclared",
        "the operand on the left of an assignment is a unary expression (6.5.16); gcc reads any, with another fault first",
        BINARY_ASSIGNED,
    ),
    Known(
        "parameters that are declared by typedef",
        "S1",
        r"storage class specified for parameter ",
        "`typedef` declares a typedef name there too, so that its use is no expression; a constraint forbids it (6.7.5.3p2)",
        r"\btypedef\b",
    ),
    Known(
        "definitions of what is no function",
        "tree",
        r"expected '=', ',', ';', 'asm' or '__attribute__' before '\{' token",
        "grammar allows a block behind any declarator; that it is a function's is a constraint (6.9.1p2)",
    ),
    Known(
        "typedef beside another storage class",
        "tree",
        r"multiple storage classes in declaration specifiers",
        "grammar allows both, and declares a typedef name (6.7); a constraint forbids it (6.7.1p2); gcc declares an object",
        r"\btypedef\b",
    ),
    Known(
        "uses of names that are declared by typedef beside another storage class",
        "S1",
        r"multiple storage classes in declaration specifiers",
        "such a declaration declares a typedef name (6.7), whose use is no expression; gcc declares an object",
        r"\b(?:auto|extern|register|static) typedef (\w+) ;.*[-+*/%=(] \1\b",
    ),
    Known(
        "assignments as constant expressions",
        "S1",
        r"'\w+' undeclared|enumerator value for ",
        "the value of an enumerator is a conditional expression (6.6, 6.7.2.2); gcc reads an assignment too",
        r"enum (?:\w+ )?\{ (?:[^}]*, )?\w+ = [^,}]* = ",
    ),
    Known(
        "typedef names behind specifiers that are no types",
        "tree",
        r"expected identifier or '\(' before '\w+'",
        "behind a comma any identifier is declared (6.7); that a type specifier is there is a constraint (6.7.2p2)",
        r"(?:auto|static|register|extern|const) \w+ (?:= \w+ )?, [A-Z] ",
    ),
    Known(
        "syntax errors behind another fault",
        "S1",
        r"'\[\*\]' not allowed in other than function prototype scope",
        "gcc says nothing of what stands behind such a declarator",
    ),
]


@dataclass(frozen=True)
class Unit:
    """A text with the name of what it is."""

    name: str
    text: str


# ---- units


def changes(tokens):
    """Each list of tokens with one change, and what was changed."""
    for at, token in enumerate(tokens):
        yield f"without {token} at {at}", tokens[:at] + tokens[at + 1 :]
        yield f"with {token} doubled at {at}", tokens[:at] + [token] + tokens[at:]
        if at + 1 < len(tokens) and token != tokens[at + 1]:
            yield f"with {token} behind {tokens[at + 1]} at {at}", tokens[:at] + [tokens[at + 1], token] + tokens[at + 2 :]


def random_changes(random, tokens, count):
    """So many lists of tokens with one change each at random, and what was changed."""
    for _ in range(count):
        at = random.randrange(len(tokens))
        other = random.randrange(len(tokens))
        token = random.choice(POOL)
        match random.choice(["put in", "replace", "exchange"]):
            case "put in":
                yield f"with {token} put in at {at}", tokens[:at] + [token] + tokens[at:]
            case "replace":
                yield f"with {token} for {tokens[at]} at {at}", tokens[:at] + [token] + tokens[at + 1 :]
            case "exchange":
                low, high = sorted((at, other))
                middle = tokens[low + 1 : high]
                changed = tokens[:low] + tokens[high : high + 1] + middle + tokens[low : low + 1] + tokens[high + 1 :]
                yield f"with {tokens[low]} at {low} and {tokens[high]} at {high} exchanged", changed


def units(examples, seed, count):
    """Each text whole, with each change, and with so many at random."""
    random = Random(seed)
    texts = {path.name: path.read_text() for path in sorted(examples.glob("*.c"))} | TEXTS
    for name, text in texts.items():
        tokens = TOKEN.findall(text)
        yield Unit(name, " ".join(tokens))
        for what, changed in [*changes(tokens), *random_changes(random, tokens, count)]:
            yield Unit(f"{name} {what}", " ".join(changed))


# ---- comparisons


def answers(rows, units):
    """What the program answers for each unit: `S1`, `tree`, or another rule of tokens."""
    asked = "".join(f"depth {unit.text}\n" for unit in units)
    done = subprocess.run([str(rows)], input=asked.encode(), capture_output=True, timeout=SECONDS + len(units))
    lines = done.stdout.decode().splitlines()
    if done.returncode != 0 or len(lines) != len(units):
        raise SystemExit(f"status {done.returncode}, {len(lines)} answers to {len(units)} rows, {done.stderr[-300:]!r}")
    return [answer_of(line) for line in lines]


def answer_of(line):
    if line.isdecimal():
        return "tree"
    return "S1" if re.fullmatch(r"S1 on line \d+", line) else line


def errors_of(unit):
    """What gcc says of a unit: the texts of its errors."""
    environment = os.environ | {"LC_ALL": "C"}
    done = subprocess.run(GCC, input=unit.text.encode(), capture_output=True, timeout=SECONDS, env=environment)
    return re.findall(r"^<stdin>:[\d:]* error: (.*)$", done.stderr.decode(), re.MULTILINE)


def says(errors, pattern):
    return any(re.match(pattern, error) for error in errors)


def wanted(errors):
    return "S1" if any(says(errors, pattern) for pattern in [*SYNTAX, *EXTENSIONS]) else "tree"


def kind_of(unit, answer, errors):
    """The kind of a known difference."""
    for kind in KNOWN:
        if kind.answer == answer and says(errors, kind.says) and re.search(kind.holds, unit.text):
            return kind
    return None


def main():
    parser = argparse.ArgumentParser(description=__doc__, formatter_class=argparse.RawDescriptionHelpFormatter)
    parser.add_argument("--rows", metavar="PROGRAM", required=True, type=Path, help="the program of the rows")
    parser.add_argument("--list", action="store_true", help="show a unit of each kind of known differences")
    parser.add_argument("--seed", default="1", help="of the random units (default 1)")
    parser.add_argument("--count", type=int, default=200, help="how many random units of each text (default 200)")
    given = parser.parse_args()
    examples = Path(__file__).resolve().parent.parent / "examples"
    looked_at = list({unit.text: unit for unit in units(examples, given.seed, given.count)}.values())
    with ThreadPoolExecutor(max_workers=os.cpu_count() or 1) as workers:
        by_gcc = workers.map(errors_of, looked_at)
        by_rows = answers(given.rows, looked_at)
        by_gcc = list(by_gcc)
    differing = []
    known = Counter()
    for unit, answer, errors in zip(looked_at, by_rows, by_gcc):
        if answer == wanted(errors):
            continue
        kind = kind_of(unit, answer, errors)
        if kind is None:
            differing.append(f"{unit.name}: {answer}, and gcc says {errors}\n{unit.text}")
            continue
        if given.list and known[kind.name] == 0:
            print(f"{kind.name}: {unit.name}: {answer}, and gcc says {errors}\n{unit.text}\n")
        known[kind.name] += 1
    trees = by_rows.count("tree")
    counts = ", ".join(f"{count} {name}" for name, count in known.items())
    print(f"{len(looked_at)} units: {trees} have a tree, {len(looked_at) - trees} don't, {len(differing)} differ; known: {counts}")
    for difference in differing[:3]:
        print(difference)
    return not differing


if __name__ == "__main__":
    sys.exit(0 if main() else 1)
