#!/usr/bin/env python3
"""Random expressions of C over typed names: which of them break a constraint is compared with gcc.

    expressions.py --rows PROGRAM [--count N] [--seed N]

Each expression stands in a function of its own behind NAMES, the declarations of what it names. PROGRAM is that of
crates/check_rows: an expression is a row, whose answer is a type where no rule is broken, and else the rule. gcc tells by
`-std=c99 -pedantic-errors -fsyntax-only` in which lines it finds an error. The profile's own rules (O1 to O12, N1) are apart:
what breaks one of them isn't compared. Two kinds of differences are known: gcc takes a
pointer on the right of `tb +=` and `tb -=`, which 6.5.16.2p1 doesn't; and it refuses `*pinc`, an lvalue of incomplete type, as a
statement of its own; no node of the expression takes its value, so what a statement says of it isn't asked here. Ends with 1 if the
two differ otherwise, with the texts of the first ones.
"""

import sys

sys.dont_write_bytecode = True

import argparse
import re
from collections import Counter
from random import Random

from checked_rows import gcc_says, rows_say, rule_in

# What the expressions name (one line, so that an expression stands on a line of its own behind it).
NAMES = " ".join(
    """
    typedef int I; typedef const int CI; typedef int A3[3]; typedef int F(int);
    enum e { E0, E1 = 5, EM = -1 }; struct inc;
    struct s { int a; unsigned b : 3; int c : 5; _Bool d : 1; struct s *next; char t[4]; };
    struct k { const int x; int y; }; union u { int i; char c[4]; struct s s; };
    _Bool tb; char ch; signed char sc; unsigned char uc; short sh; unsigned short us; int i; unsigned ui; long l; unsigned long ul;
    long long ll; unsigned long long ull; enum e en; const int ci; I td; CI cd; A3 ta;
    int *pi; const int *pci; int *const cpi; void *pv; const void *pcv; char *pch; const char *pcch; unsigned char *puc; long *pl;
    int **ppi; const int **ppci; struct s st, *ps; const struct s cst, *pcs; struct k sk, *psk; union u un, *pun; struct inc *pinc;
    int ai[4]; char ac[4]; const int aci[3]; int m[2][3]; int (*pai)[4]; int (*pau)[]; int *ap[2]; enum e *pen; unsigned *pui;
    int f0(void); int f1(int); int f2(int, const char *); void fv(void); struct s fs(void); int (*pf)(int); int vf(const char *, ...);
    void *fpv(void); int *fpi(int *); void fst(struct s, union u *); const int *fpci(const int *);
    """.split()
)

LEAVES = """tb ch sc uc sh us i ui l ul ll ull en ci td cd ta pi pci cpi pv pcv pch pcch puc pl ppi ppci st ps cst pcs sk psk un pun
    pinc ai ac aci m pai pau ap pen pui f0 f1 f2 fv fs pf vf fpv fpi fst fpci E0 E1 EM 0 1 5 0u 7L 0x80000000 2147483648 'a' '\\0' "ab" ""
    ((void*)0) (void*)1 absent""".split()
TYPES = """int|unsigned|char|_Bool|long|unsigned char|short|void|int *|const int *|void *|const void *|char *|const char *|struct s|
    struct s *|union u|struct inc *|enum e|int (*)(int)|void (*)(void)|int [3]|int (*)[4]|I|CI|F *|A3|int **|unsigned long|
    struct inc|int (*)[]|F|const char|long *|unsigned *|struct k *""".replace("\n", "").split("|")
TYPES = [one.strip() for one in TYPES]
MEMBERS = ["a", "b", "c", "d", "next", "t", "x", "y", "i", "s", "z"]
BINARY = "+ - * / % << >> < > <= >= == != & ^ | && ||".split()
ASSIGN = "= = = += -= *= /= %= <<= >>= &= ^= |=".split()
UNARY = "& * + - ~ ! ++ --".split()


def expression(random, depth):
    """An expression whose operands stand at most so deep, in parentheses where it is an operand."""
    if depth == 0 or random.random() < 0.12:
        return random.choice(LEAVES)

    def part():
        text = expression(random, depth - 1)
        return text if re.fullmatch(r"\w+", text) else f"({text})"

    form = random.randrange(20)
    if form < 6:
        return f"{part()} {random.choice(BINARY)} {part()}"
    if form < 9:
        return f"{random.choice(UNARY)}{part()}"
    if form < 12:
        return f"{part()} {random.choice(ASSIGN)} {part()}"
    if form == 12:
        return f"{part()} ? {part()} : {part()}"
    if form == 13:
        return f"({random.choice(TYPES)}){part()}"
    if form == 14:
        return random.choice([f"sizeof {part()}", f"sizeof({random.choice(TYPES)})"])
    if form == 15:
        return f"{part()}[{part()}]"
    if form == 16:
        return f"{part()}{random.choice(['.', '->'])}{random.choice(MEMBERS)}"
    if form == 17:
        args = ", ".join(part() for _ in range(random.randrange(3)))
        return f"{random.choice(['f0', 'f1', 'f2', 'fv', 'fs', 'pf', 'vf', 'fpi', 'fst', part()])}({args})"
    if form == 18:
        return f"{part()}{random.choice(['++', '--'])}"
    return f"{part()}, {part()}"


# An expression that is an lvalue of incomplete type.
INCOMPLETE = re.compile(r"(.*, )?\(*\*\(*pinc\)*")

# A pointer added to a _Bool by assignment.
TRUTH_MOVED = re.compile(r"(.*\W)?\(*tb\)* [+-]= .*")


def main():
    reader = argparse.ArgumentParser()
    reader.add_argument("--rows")
    reader.add_argument("--count", type=int, default=700)
    reader.add_argument("--seed", type=int, default=1)
    words = reader.parse_args()
    random = Random(words.seed)
    texts = []
    while len(texts) < words.count:
        text = expression(random, random.choice([1, 1, 2, 2, 3]))
        if text not in texts:
            texts.append(text)
    said = gcc_says(NAMES, texts)
    if words.rows is None:
        print(f"{len(texts)} expressions, of which gcc takes {sum(not one for one in said)}")
        return
    rules = [rule_in(answer) for answer in rows_say(words.rows, NAMES, texts)]
    apart, known, alike, others = 0, 0, Counter(), []
    for text, rule, errors in zip(texts, rules, said):
        refused = errors != ""
        if rule is not None and rule[0] in "ON":
            apart += 1
        elif refused == (rule is not None):
            alike["refused" if refused else "taken"] += 1
        elif refused and INCOMPLETE.fullmatch(text) and "undefined type" in errors:
            known += 1
        elif not refused and rule == "K10" and TRUTH_MOVED.fullmatch(text):
            known += 1
        else:
            others.append(f"{text}: {rule or 'taken'}, gcc: {errors or 'taken'}")
    print(
        f"{len(texts)} expressions: {alike['taken']} taken, {alike['refused']} refused, {apart} break rules of the profile's own, "
        f"{known} differ as is known, {len(others)} otherwise"
    )
    for one in others[:40]:
        print("  " + one)
    sys.exit(1 if others else 0)


if __name__ == "__main__":
    main()
