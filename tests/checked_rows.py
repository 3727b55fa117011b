"""What gcc and the rows of crates/check_rows say of statements in functions of their own, behind one line of declarations."""

import re
import subprocess
import sys

SECONDS = 300
GCC = ["gcc", "-x", "c", "-std=c99", "-pedantic-errors", "-fsyntax-only", "-fno-diagnostics-show-caret", "-fmax-errors=0", "-"]


def gcc_says(names, statements):
    """What gcc says of each statement: its errors, or an empty text."""
    unit = names + "\n" + "\n".join(f"void check{k}(void) {{ {one}; }}" for k, one in enumerate(statements)) + "\n"
    done = subprocess.run(GCC, input=unit, capture_output=True, text=True, timeout=SECONDS)
    said = [""] * len(statements)
    for line in done.stderr.split("\n"):
        found = re.match(r"<stdin>:(\d+):\d+: error: (.*)", line)
        if found:
            number = int(found[1]) - 2
            if number < 0:
                sys.exit(f"gcc refuses the names: {line}")
            said[number] += found[2] + "; "
    return said


def rows_say(program, names, statements):
    """The answer of each row: the type of the expression that the statement is, or the rule that it breaks with its line."""
    rows = "".join(f"expression {names} void check(void) {{ {one}; }}\n" for one in statements)
    done = subprocess.run([program], input=rows, capture_output=True, text=True, timeout=SECONDS)
    answers = done.stdout.split("\n")[: len(statements)]
    if done.returncode != 0 or len(answers) != len(statements):
        sys.exit(f"the program of the rows ends with {done.returncode}: {done.stdout[-200:]}{done.stderr[-200:]}")
    for answer in answers:
        if answer.startswith("not a row") or answer == "out of memory":
            sys.exit(f"no answer: {answer}")
    return answers


def rule_in(answer):
    """The rule that an answer names, or None where nothing is broken."""
    found = re.match(r"([A-Z]\d+) on line \d+$", answer)
    return found[1] if found else None
