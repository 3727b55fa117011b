#!/usr/bin/env python3
"""Units near the straight `int` form: which of them c2rs takes is compared with a reader of its own.

    straight_mutants.py --c2rs PROGRAM --folder DIR    the units, and what is written for them, are left in DIR

Each unit is a random unit of the form in which a few tokens were dropped, doubled, exchanged, replaced or put in. It is
taken exactly where the reader of straight_oracle.py finds a unit of the form in which each name is one of C that Rust
keeps; then gcc takes it too, as C99 without extensions. Any other unit ends with status 1, one line of report that names
a rule, and no file. Ends with 1 if anything differs, with the text of the first such unit.
"""

import sys

sys.dont_write_bytecode = True

import argparse
import os
import re
import shutil
import subprocess
from concurrent.futures import ThreadPoolExecutor
from dataclasses import dataclass
from functools import partial
from pathlib import Path
from random import Random

from straight_generator import random_units
from straight_oracle import NotOfTheForm, tokens_of, unit_of

SECONDS = 120
GCC = ["gcc", "-std=c99", "-pedantic-errors", "-fsyntax-only"]

# ISO C99, 6.4.1
C_WORDS = """auto break case char const continue default do double else enum extern float for goto if inline int long
register restrict return short signed sizeof static struct switch typedef union unsigned void volatile while _Bool
_Complex _Imaginary""".split()

# the Rust Reference, "Keywords", strict, reserved and weak ones of today, and the names that written crates need
RUST_WORDS = """abstract as async await become box break const continue crate do dyn else enum extern false final fn for
gen if impl in let loop macro match mod move mut override priv pub ref return self Self static struct super trait true
try type typeof unsafe unsized use virtual where while yield _ main main_0 run_static_initializers current_block core
std Option Some None i8 i16 i32 i64 u8 u16 u32 u64 isize usize bool""".split()

# words that GNU C reserves, or that it takes for types
GNU_WORDS = ["asm", "typeof", "__asm__", "__attribute__", "__extension__", "__typeof__"]

MARKS = ["(", ")", "{", "}", ";", ",", "=", "+", "-", "*", "--", "+=", "==", "->", "/", "&", "[", "]", "?", "<<=", "..."]
NUMBERS = ["0", "1", "7", "00", "010", "1u", "1L", "0x1f", "2147483647", "2147483648", "1.5", "1e3", "1x", "09"]
NAMES = ["x", "y", "t", "_a", "putchar", "main", "fn", "loop", "i32", "main_0", "std", "Self", "_", "crate"]
ODD = ["@", "$", "`", "'a'", "''", '"', '"s"', "'", "\\", "é", "/*", "//"]
POOL = MARKS + NUMBERS + NAMES + ODD + C_WORDS + GNU_WORDS
RULES = {
    "S1": "no derivation",
    "N1": "not built",
    "X1": "byte not allowed",
    "X2": "literal or comment not closed, or not one character",
    "X3": "bad escape",
    "X4": "malformed number",
    "X5": "floating constant",
    "X6": "constant fits no type",
    "X7": "wide or universal character",
    "X8": "line with #",
    "O1": "floating word",
    "O2": "volatile",
    "O12": "GNU word",
    "O3": "array form",
    "O4": "identifier list",
    "O5": "variadic definition",
    "O6": "wide bit-field",
    "O7": "pointer and integer",
    "O8": "object and function pointer",
    "O9": "inline without static",
    "O10": "flexible array member",
    "O11": "array of a value",
    "K1": "undeclared",
    "K2": "redeclared",
    "K3": "type words",
    "K4": "storage class",
    "K5": "incomplete type",
    "K6": "array length",
    "K7": "function type",
    "K8": "member",
    "K9": "call",
    "K10": "operands",
    "K11": "lvalue",
    "K12": "assignment",
    "K13": "cast",
    "K14": "sizeof",
    "K15": "address",
    "K16": "conditional",
    "K17": "constant needed",
    "K18": "case, break or continue",
    "K19": "label",
    "K20": "return",
    "K21": "initialiser",
    "K22": "bit-field",
    "K23": "enumerator",
    "K24": "tag",
    "M3": "object too large",
    "L1": "second definition",
    "L2": "incompatible declarations",
    "L3": "main",
    "L4": "external function outside the profile",
    "L5": "undefined object",
}
REPORT = re.compile(r"(unit\.c:[1-9]\d*: (" + "|".join(f"{rule}: {text}" for rule, text in RULES.items()) + r")|c2rs: L3: main)\n")


@dataclass(frozen=True)
class Outcome:
    """Whether the program took a unit, and how that differs, if it does."""

    text: str
    is_taken: bool
    difference: str | None = None


# ---- units


def changed(random, tokens):
    """Tokens with one change."""
    at = random.randrange(len(tokens))
    other = random.randrange(len(tokens))
    match random.choice(["drop", "double", "exchange", "replace", "replace by one of the unit", "put in"]):
        case "drop":
            return tokens[:at] + tokens[at + 1 :]
        case "double":
            return tokens[:at] + tokens[at : at + 1] + tokens[at:]
        case "exchange":
            low, high = sorted((at, other))
            return tokens[:low] + tokens[high : high + 1] + tokens[low + 1 : high] + tokens[low : low + 1] + tokens[high + 1 :]
        case "replace":
            return tokens[:at] + [random.choice(POOL)] + tokens[at + 1 :]
        case "replace by one of the unit":
            return tokens[:at] + [tokens[other]] + tokens[at + 1 :]
        case "put in":
            return tokens[:at] + [random.choice(POOL)] + tokens[at:]


def mutants(seed, count):
    """Random units, each with one to three changes, or none."""
    random = Random(seed)
    for text in random_units(seed, count, False).values():
        tokens = [token for token, _ in tokens_of(text)]
        for _ in range(random.choice([0, 1, 1, 1, 2, 3])):
            if tokens:
                tokens = changed(random, tokens)
        yield random.choice([" ", "\n"]).join(tokens) + random.choice(["", "\n"])


def is_of_the_form(text):
    """Whether the reader finds a unit of the form, without what it reads beyond it, all of whose names are kept."""
    try:
        unit_of(text)
        tokens = [token for token, _ in tokens_of(text)]
    except NotOfTheForm:
        return False
    body = tokens.index("{")
    pairs = list(zip(tokens[:body], tokens[1:body]))
    declared = {name for word, name in pairs if word == "int"} - {"putchar", "main", ")"}
    return (
        ("=", "-") not in pairs
        and "," not in tokens[:body]
        and declared.isdisjoint([*C_WORDS, *RUST_WORDS, *GNU_WORDS])
        and text.isascii()
    )


# ---- comparisons


def run(command, folder):
    return subprocess.run(command, cwd=folder, stdin=subprocess.DEVNULL, capture_output=True, timeout=SECONDS)


def difference_of(done, text, folder):
    """How the end of the program differs from what the form says, if it does."""
    files = sorted(str(path.relative_to(folder / "out")) for path in (folder / "out").rglob("*") if path.is_file())
    if done.stdout:
        return f"writes {done.stdout!r}"
    if not is_of_the_form(text):
        report = done.stderr.decode(errors="replace")
        is_refused = done.returncode == 1 and REPORT.fullmatch(report) and not files
        return None if is_refused else f"isn't refused: status {done.returncode}, {report!r}, {files}"
    if done.returncode != 0 or done.stderr or files != ["Cargo.toml", "src/main.rs", "src/unit.rs"]:
        return f"isn't taken: status {done.returncode}, {done.stderr!r}, {files}"
    by_gcc = run([*GCC, "unit.c"], folder)
    return None if by_gcc.returncode == 0 else f"is taken, and gcc says {by_gcc.stderr.decode(errors='replace')}"


def compared(c2rs, folder, numbered):
    number, text = numbered
    own = folder / f"mutant_{number}"
    shutil.rmtree(own, ignore_errors=True)
    own.mkdir(parents=True)
    (own / "unit.c").write_bytes(text.encode())
    try:
        done = run([c2rs, "transpile", "-o", "out", "unit.c"], own)
        return Outcome(text, done.returncode == 0, difference_of(done, text, own))
    except subprocess.TimeoutExpired:
        return Outcome(text, False, f"took over {SECONDS} seconds")


def main():
    parser = argparse.ArgumentParser(description=__doc__, formatter_class=argparse.RawDescriptionHelpFormatter)
    parser.add_argument("--c2rs", metavar="PROGRAM", required=True, type=Path, help="the translator")
    parser.add_argument("--folder", metavar="DIR", required=True, type=Path, help="where units and crates are put")
    parser.add_argument("--seed", default="1", help="of the random units (default 1)")
    parser.add_argument("--count", type=int, default=1200, help="how many units (default 1200)")
    given = parser.parse_args()
    one = partial(compared, str(given.c2rs.resolve()), given.folder.resolve())
    with ThreadPoolExecutor(max_workers=os.cpu_count() or 1) as workers:
        outcomes = list(workers.map(one, enumerate(mutants(given.seed, given.count))))
    differing = [outcome for outcome in outcomes if outcome.difference is not None]
    taken = sum(outcome.is_taken for outcome in outcomes)
    print(f"{len(outcomes)} units: {taken} taken, {len(outcomes) - taken} refused, {len(differing)} differ")
    if differing:
        print(f"{differing[0].difference}\n{differing[0].text}")
    return not differing


if __name__ == "__main__":
    sys.exit(0 if main() else 1)
