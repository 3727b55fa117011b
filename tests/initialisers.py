#!/usr/bin/env python3
"""Random compound literals: which of them break a constraint, and how long their arrays are, is compared with gcc.

    initialisers.py --rows PROGRAM [--count N] [--seed N]

Each literal stands in a function of its own behind NAMES, the declarations of what it names. PROGRAM is that of
crates/check_rows: `&(T){ .. }` is a row, whose answer is a type where no rule is broken, and else the rule. gcc tells by
`-std=c99 -pedantic-errors -fsyntax-only` in which lines it finds an error, and by `sizeof` how long the array of a literal without
length is. Ends with 1 if the two differ, with the texts of the first ones.
"""

import sys

sys.dont_write_bytecode = True

import argparse
import subprocess
import tempfile
from pathlib import Path
from random import Random

from checked_rows import SECONDS, gcc_says, rows_say, rule_in

# What the literals name (one line, so that a literal stands on a line of its own behind it).
NAMES = " ".join(
    """
    struct p { int a; int b; }; struct q { int a[2]; struct p v; }; union w { int i; struct p v; char t[4]; };
    struct b { int x : 3; int : 2; int y; }; struct z { struct { int u; struct p v; } in; char t[4]; const int c; };
    struct p sp; struct q sq; union w uw; struct z sz; int i; int *pi; const char *pt; void fv(void);
    """.split()
)

INT, POINTER, CHAR = ("int",), ("pointer",), ("char",)
PAIR = ("record", "struct p", "sp", [("a", INT), ("b", INT)])
QUAD = ("record", "struct q", "sq", [("a", ("array", INT, 2)), ("v", PAIR)])
UNION = ("record", "union w", "uw", [("i", INT), ("v", PAIR), ("t", ("array", CHAR, 4))])
BITS = ("record", "struct b", "sp", [("x", INT), ("y", INT)])
INNER = ("record", "struct p", "sp", [("u", INT), ("v", PAIR)])
MIXED = ("record", "struct z", "sz", [("in", INNER), ("t", ("array", CHAR, 4)), ("c", INT)])
# A type with how it is written around the length of an array.
TYPES = [
    (INT, "int"), (POINTER, "int *"), (PAIR, "struct p"), (QUAD, "struct q"), (UNION, "union w"), (BITS, "struct b"), (MIXED, "struct z"),
    (("array", INT, 3), "int[3]"), (("array", PAIR, 2), "struct p[2]"), (("array", CHAR, 3), "char[3]"),
    (("array", ("array", INT, 2), 2), "int[2][2]"), (("array", INT, None), "int[]"), (("array", PAIR, None), "struct p[]"),
    (("array", QUAD, None), "struct q[]"), (("array", UNION, None), "union w[]"), (("array", BITS, None), "struct b[]"),
    (("array", MIXED, None), "struct z[]"), (("array", ("array", INT, 2), None), "int[][2]"), (("array", CHAR, None), "char[]"),
    (("array", ("array", CHAR, 4), None), "char[][4]"), (("array", POINTER, None), "const char *[]"),
]
STRINGS = ['"a"', '"abc"', '"abcd"', '""', '"ab" "c"']
NOISE = ["pi", "sp", "sq", "uw", "fv()", "absent", '"a"', "i", "0"]


def value(random, kind):
    """A value that may stand for a scalar or for a whole object."""
    if random.random() < 0.03:
        return random.choice(NOISE)
    if kind[0] == "pointer":
        return random.choice(["0", "pi", "pt", "&i", '"a"', "(void *)0"])
    if kind[0] == "array" and kind[1][0] == "char":
        return random.choice(STRINGS)
    if kind[0] == "record" and random.random() < 0.5:
        return kind[2]
    return random.choice(["1", "i", "-2", "'c'", "7u"])


def parts_of(random, kind):
    """A part of an object with the designator that names it."""
    if kind[0] == "array":
        length = kind[2] if kind[2] is not None else 3
        index = random.randrange(length + (1 if random.random() < 0.05 else 0))
        return f"[{index}]", kind[1]
    if kind[0] == "record":
        name, part = random.choice(kind[3])
        return f".{name}", part
    return random.choice([".a", "[0]"]), INT


def designated(random, kind):
    """Designators that lead from an object to a part."""
    words, part = parts_of(random, kind)
    while part[0] in ("array", "record") and random.random() < 0.4:
        more, part = parts_of(random, part)
        words += more
    return words, part


def initialiser(random, kind, depth):
    if kind[0] in ("array", "record") and depth > 0 and random.random() < 0.7:
        return listed(random, kind, depth - 1)
    text = value(random, kind)
    return f"{{{text}}}" if random.random() < 0.08 else text


def listed(random, kind, depth):
    """A list in braces for an object."""
    entries = []
    for _ in range(random.choice([1, 1, 2, 2, 3, 4, 5])):
        if random.random() < 0.25 and kind[0] in ("array", "record"):
            words, part = designated(random, kind)
            entries.append(f"{words} = {initialiser(random, part, depth)}")
        else:
            part = kind
            while part[0] in ("array", "record") and random.random() < 0.75:
                part = parts_of(random, part)[1]
            entries.append(initialiser(random, part, depth))
    return "{" + ", ".join(entries) + ("," if random.random() < 0.1 else "") + "}"


def literal(random):
    kind, written = random.choice(TYPES)
    return f"({written}){listed(random, kind, 2)}"


def gcc_lengths(texts):
    """How long the array of each literal is, of literals that gcc takes."""
    asked = [f'printf("%zu\\n", sizeof{text} / sizeof({text}[0]));' for text in texts]
    unit = NAMES + "\nint printf(const char *, ...);\nint main(void) {\n" + "\n".join(asked) + "\nreturn 0; }\n"
    with tempfile.TemporaryDirectory() as folder:
        program = str(Path(folder) / "lengths")
        subprocess.run(["gcc", "-x", "c", "-std=c99", "-w", "-o", program, "-"], input=unit, text=True, check=True, timeout=SECONDS)
        done = subprocess.run([program], capture_output=True, text=True, check=True, timeout=SECONDS)
    return done.stdout.split()


def refusals_differ(texts, said, answers):
    """The literals that one side refuses and the other takes."""
    differ = []
    for text, fault, answer in zip(texts, said, answers):
        rule = rule_in(answer)
        if rule and rule[0] == "O":
            continue
        if bool(rule) != bool(fault):
            differ.append(f"&{text}: rows {answer}, gcc {fault or 'takes it'}")
    return differ


def lengths_differ(texts, said, answers):
    """The literals without length that both sides take and that have another length on each; and how many were compared."""
    both = [
        (text, answer)
        for text, fault, answer in zip(texts, said, answers)
        if not fault and answer.startswith("pointer to array ") and "[]" in text.split("{")[0]
    ]
    differ = []
    for (text, answer), length in zip(both, gcc_lengths([text for text, _ in both])):
        if answer.split()[3] != length:
            differ.append(f"&{text}: rows {answer}, gcc {length} elements")
    return differ, len(both)


def main():
    reader = argparse.ArgumentParser()
    reader.add_argument("--rows")
    reader.add_argument("--count", type=int, default=1000)
    reader.add_argument("--seed", type=int, default=1)
    words = reader.parse_args()
    random = Random(words.seed)
    texts = []
    while len(texts) < words.count:
        text = literal(random)
        if text not in texts:
            texts.append(text)
    said = gcc_says(NAMES, [f"&{text}" for text in texts])
    answers = rows_say(words.rows, NAMES, [f"&{text}" for text in texts])
    differ = refusals_differ(texts, said, answers)
    longer, compared = lengths_differ(texts, said, answers)
    differ += longer
    refused = sum(1 for fault in said if fault)
    print(f"{len(texts)} literals, of which gcc refuses {refused}; {compared} lengths; {len(differ)} differ")
    for one in differ[:10]:
        print("  " + one)
    return 1 if differ else 0


if __name__ == "__main__":
    sys.exit(main())
