#!/usr/bin/env python3
"""Random units of the straight `int` form: what their translated crates show is compared with what ISO C99 says.

    straight_units.py --self-test                    the evaluator against answers worked out by hand
    straight_units.py --c2rs PROGRAM --folder DIR    units, their crates and all that is built are left in DIR
    straight_units.py --gcc-only --folder DIR        the evaluator against gcc's programs alone
    straight_units.py --answer FILE                  what the unit in a file shows

Each unit is evaluated from the left. Where its run ends, the crate's program writes the same bytes and has the same
status. Where a step of it is undefined, the crate's program writes at least the bytes before that step. gcc's program
is compared where the run ends and no other order of operands writes other bytes; a signed overflow in it is a trap,
but for those that gcc folds or drops. Ends with 1 if anything differs, with the text of the first such unit.
"""

import sys

sys.dont_write_bytecode = True

import argparse
import os
import re
import shutil
import subprocess
from collections import Counter
from concurrent.futures import ThreadPoolExecutor
from dataclasses import dataclass
from functools import partial
from pathlib import Path

from straight_generator import random_units
from straight_oracle import Answer, answer_of, unit_of
from straight_rows import ROWS, differing_rows

SECONDS = 120
GCC = ["gcc", "-std=c99", "-O0", "-w", "-fsanitize=signed-integer-overflow", "-fsanitize-undefined-trap-on-error"]


@dataclass(frozen=True)
class Shown:
    """What a program wrote to standard output, and its status (negative where a signal ended it)."""

    written: bytes
    status: int


@dataclass(frozen=True)
class Outcome:
    """What was compared for a unit, and how it differs, if it does."""

    name: str
    answer: Answer
    compared: tuple = ()
    difference: str | None = None


class Differs(Exception):
    """Something isn't as the evaluator says."""


def run(command, folder):
    """Runs a command in a folder, without input and with a time limit."""
    try:
        return subprocess.run(command, cwd=folder, stdin=subprocess.DEVNULL, capture_output=True, timeout=SECONDS)
    except subprocess.TimeoutExpired:
        raise Differs(f"{' '.join(command)} took over {SECONDS} seconds") from None


def built(command, folder):
    """Runs a command that must succeed."""
    done = run(command, folder)
    if done.returncode != 0:
        report = done.stderr.decode(errors="replace").strip()
        raise Differs(f"{' '.join(command)} ends with {done.returncode}: {report}")


def shown_by(program, folder):
    """Runs a program whose standard output isn't buffered: a Rust program that panics in a function of the C interface
    is aborted, and a buffer would be lost."""
    done = run(["stdbuf", "-o0", program], folder)
    return Shown(done.stdout, done.returncode)


# ---- the two programs of a unit


def program_of_gcc(name, folder):
    built([*GCC, "-o", f"{name}_by_gcc", f"{name}.c"], folder)
    return f"./{name}_by_gcc"


def program_of_crate(c2rs, name, folder):
    """Translates a unit, and builds the crate with the edition that its `Cargo.toml` names."""
    built([c2rs, "transpile", "-o", name, f"{name}.c"], folder)
    edition = re.search(r'^edition = "(\d+)"$', (folder / name / "Cargo.toml").read_text(), re.MULTILINE)
    if edition is None:
        raise Differs("Cargo.toml names no edition")
    options = ["--edition", edition.group(1), "-C", "overflow-checks=on", "--cap-lints", "allow"]
    built(["rustc", *options, "-o", f"{name}/translated", f"{name}/src/main.rs"], folder)
    return f"./{name}/translated"


# ---- comparisons


def compare_ended(answer, shown, whose):
    if (shown.written, shown.status) != (answer.written, answer.status):
        raise Differs(f"{whose} shows {shown.written!r} and status {shown.status}")


def compare_crate(answer, shown):
    """Up to an undefined step the events are those of C; behind it anything may follow."""
    if answer.rule is None:
        compare_ended(answer, shown, "the crate")
    elif not shown.written.startswith(answer.written):
        raise Differs(f"the crate shows {shown.written!r}, not the bytes before the undefined step")


def compare_orders(unit, answer):
    """From the right the answer is the same where the order isn't seen; whether the run ends never depends on it."""
    other = answer_of(unit, from_left=False)
    if (answer.rule is None) != (other.rule is None) or (answer.rule is None and answer.status != other.status):
        raise Differs(f"from the right: {other}")
    if answer.rule is None and not answer.is_ordered and answer.written != other.written:
        raise Differs(f"from the right: {other}")


def compared_unit(c2rs, folder, named):
    """Compares one unit, of a name and a text."""
    name, text = named
    (folder / f"{name}.c").write_bytes(text.encode())
    shutil.rmtree(folder / name, ignore_errors=True)
    unit = unit_of(text)
    answer = answer_of(unit)
    compared = []
    try:
        compare_orders(unit, answer)
        if answer.rule is None and not answer.is_ordered:
            compare_ended(answer, shown_by(program_of_gcc(name, folder), folder), "gcc's program")
            compared.append("gcc")
        if c2rs is not None:
            compare_crate(answer, shown_by(program_of_crate(c2rs, name, folder), folder))
            compared.append("crate")
    except Differs as difference:
        return Outcome(name, answer, tuple(compared), str(difference))
    return Outcome(name, answer, tuple(compared))


def compared_units(c2rs, folder, units):
    """Compares all units, as many at a time as there are processors."""
    with ThreadPoolExecutor(max_workers=os.cpu_count() or 1) as workers:
        return list(workers.map(partial(compared_unit, c2rs, folder), units.items()))


# ---- reports


def report(outcomes, units):
    """Prints the counts and the first difference, and says whether there is none."""
    rules = Counter(outcome.answer.rule for outcome in outcomes)
    compared = Counter(what for outcome in outcomes for what in outcome.compared)
    differing = [outcome for outcome in outcomes if outcome.difference is not None]
    print(
        f"{len(outcomes)} units: {rules[None]} end, {rules['U1']} come to a conflict, {rules['U2']} to an overflow; "
        f"{compared['gcc']} agree with gcc, {compared['crate']} with their crates, {len(differing)} differ"
    )
    if differing:
        first = differing[0]
        print(f"{first.name}.c: {first.difference}\nby C99: {first.answer}\n{units[first.name]}")
    return not differing


def self_test():
    lines = differing_rows()
    print("\n".join([*lines, f"{len(ROWS)} rows, {len(lines)} differ"]))
    return not lines


def words():
    parser = argparse.ArgumentParser(description=__doc__, formatter_class=argparse.RawDescriptionHelpFormatter)
    parser.add_argument("--self-test", action="store_true", help="only the rows worked out by hand")
    parser.add_argument("--answer", metavar="FILE", type=Path, help="only what the unit in FILE shows")
    parser.add_argument("--c2rs", metavar="PROGRAM", help="the translator")
    parser.add_argument("--gcc-only", action="store_true", help="without the translator")
    parser.add_argument("--folder", metavar="DIR", type=Path, help="where units and programs are put")
    parser.add_argument("--seed", default="1", help="of the random units (default 1)")
    parser.add_argument("--count", type=int, default=200, help="how many units (default 200)")
    parser.add_argument("--wide", action="store_true", help="several declarators and -N as initialisers too, outside the form")
    given = parser.parse_args()
    is_alone = given.self_test or given.answer is not None
    if not is_alone and (given.folder is None or (given.c2rs is None) != given.gcc_only):
        parser.error("--folder is wanted, and either --c2rs or --gcc-only")
    return given


def main():
    given = words()
    if given.self_test:
        return self_test()
    if given.answer is not None:
        print(answer_of(unit_of(given.answer.read_bytes().decode())))
        return True
    folder = given.folder.resolve()
    folder.mkdir(parents=True, exist_ok=True)
    c2rs = None if given.c2rs is None else str(Path(given.c2rs).resolve())
    units = random_units(given.seed, given.count, given.wide)
    return report(compared_units(c2rs, folder, units), units)


if __name__ == "__main__":
    sys.exit(0 if main() else 1)
