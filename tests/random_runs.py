#!/usr/bin/env python3
"""Runs of random programs by `c2rs run-c`, against gcc's programs with its checks for undefined steps.

    random_runs.py --c2rs PROGRAM [--count N] [--seed N]

A program of random_programs.py that ends writes the same by gcc and by `run-c`, whatever the order of evaluation. Where gcc's checks find an
overflow, a division or a shift that isn't defined, `run-c` has written the same up to there and tells that rule and that line. Two kinds of
differences are known: gcc only warns of a step that it computes while it translates, and it misses an overflow where the bits that are wrong
are dropped, as in `(char)(a + b)` and `a - b ? 1 : 2`. Ends with 1 if the two differ otherwise, with the first ones.
"""

import sys

sys.dont_write_bytecode = True

import re
import subprocess
import tempfile
from pathlib import Path
from random import Random

from random_programs import program
from random_texts import options, tell

SECONDS = 60
STEPS = "3000000"
GCC = ["gcc", "-std=c99", "-O0", "-fsanitize=undefined", "-fno-sanitize-recover=undefined"]
# What gcc's checks say of a step that is undefined by each rule.
CHECKED = (("U3", "division"), ("U4", "shift"), ("U2", "overflow|negation"))
# What gcc warns of a step that it computes while it translates, by rule.
COMPUTED = {"U3": "-Wdiv-by-zero", "U4": "-Wshift"}


def run(command, folder):
    return subprocess.run(command, cwd=folder, capture_output=True, text=True, timeout=SECONDS)


def checked(report):
    """The line and the rule of the step that gcc's checks found, or None."""
    found = re.search(r"a\.c:(\d+):\d+: runtime error: (.*)", report)
    return found and (int(found[1]), next((rule for rule, words in CHECKED if re.search(words, found[2])), found[2]))


def told(report):
    """The line and the rule of the step that `run-c` tells, or None."""
    found = re.match(r"a\.c:(\d+): undefined: (U\d+) ", report)
    return found and (int(found[1]), found[2])


def is_missed(warnings, line, rule):
    """Whether gcc's checks may miss a step on this line that is undefined by this rule."""
    return rule == "U2" or rule in COMPUTED and re.search(rf"(?m)^a\.c:{line}:\d+: warning: .*{COMPUTED[rule]}", warnings)


def ordered(seed):
    choices = Random(seed)
    return ",".join(str(choices.randrange(8)) for _ in range(2000))


def outcome(c2rs, seed, folder):
    """What came of the program with this seed, and how both differ, or None."""
    (folder / "a.c").write_text(program(seed))
    built = run([*GCC, "-o", "a", "a.c"], folder)
    if built.returncode:
        return "not built", f"gcc says {built.stderr[:300]!r}"
    wanted = run(["stdbuf", "-o0", "./a"], folder)
    shown = run([c2rs, "run-c", "--steps", STEPS, "a.c"], folder)
    found, said = checked(wanted.stderr), told(shown.stderr)
    if shown.returncode == 7:
        return "too long", None
    if said and said != found and is_missed(built.stderr, *said) and wanted.stdout.startswith(shown.stdout):
        return "undefined where gcc misses it", None
    if (found, wanted.stdout) != (said, shown.stdout) or (0 if not found else 5) != shown.returncode:
        return "differs", f"run-c says {shown.stderr.strip()!r}, and gcc's program {wanted.stderr.strip()[:200]!r}; written alike: {wanted.stdout == shown.stdout}"
    if found:
        return "undefined", None
    other = run([c2rs, "run-c", "--steps", STEPS, "--order", ordered(seed), "a.c"], folder)
    if (other.returncode, other.stdout) != (0, shown.stdout):
        return "differs", f"in another order run-c says {other.stderr.strip()!r}"
    return "ended", None


def main():
    c2rs, seeds = options(120)

    def outcome_of(seed):
        with tempfile.TemporaryDirectory() as folder:
            return outcome(c2rs, seed, Path(folder))

    return tell("random programs", seeds, outcome_of)


if __name__ == "__main__":
    sys.exit(main())
