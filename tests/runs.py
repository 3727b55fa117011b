#!/usr/bin/env python3
"""Runs of C programs by `c2rs run-c`, against gcc's programs and against the rules of undefined steps.

    runs.py --c2rs PROGRAM       all of what follows
    runs.py --gcc-only           the programs of tests/programs/ and the worked units by gcc alone, with its checks for undefined steps

Each program of tests/programs/, with the input that stands beside it, is built and run by gcc too: both write the same bytes and have the
same status. Each program of tests/undefined/ has one undefined step, on the line that names its rule, and that line and rule are told.
What else is run has its answers here and in worked_jobs.py. The last line says how much memory a loop of a million steps took, and how long and how
much one of 10 million, which has to take less than 10 seconds, and a list of 500,000 nodes. Ends with 1 if anything differs.
"""

import sys

sys.dont_write_bytecode = True

import argparse
import os
import re
import subprocess
import tempfile
from pathlib import Path

from worked_jobs import BOTH, CRATES, DEEP, LONG_LIST, LOOP, LOOPS, OTHERS, UNITS, Shown, ended, run_c, told

TESTS = Path(__file__).resolve().parent
PROGRAMS, UNDEFINED = TESTS / "programs", TESTS / "undefined"
SECONDS = 120
GCC = ["gcc", "-std=c99", "-pedantic-errors", "-w", "-O1", "-g"]
CHECKS = ["-fsanitize=undefined,address", "-fno-sanitize-recover=undefined"]

# What each rule is told with.
RULES = {
    "U1": "unsequenced conflict",
    "U2": "overflow",
    "U3": "division",
    "U4": "shift",
    "U5": "dead object",
    "U6": "outside an object",
    "U7": "unset bits read",
    "U8": "bad truth value",
    "U9": "pointer bytes",
    "U10": "misaligned",
    "U11": "pointer arithmetic",
    "U12": "pointer comparison",
    "U13": "call",
    "U14": "missing value",
    "U15": "free",
    "U16": "overlap",
}

# Units that write by each function that does.
FAILING_OUTPUTS = (
    ("putchar", "int putchar(int); int main(void) { putchar('a'); return 0; }"),
    ("puts", 'int puts(const char *); int main(void) { puts("a"); return 0; }'),
    ("printf", 'int printf(const char *, ...); int main(void) { printf("%d", 1); return 0; }'),
)

# The most processor seconds of a run of 10 million steps, and how often it is tried on a machine that does more.
MOST_SECONDS = 10
TRIES = 3

ROWS = (
    run_c("steps that are used up", "int putchar(int); int main(void) { putchar('a'); for (;;) ; }", told(7, "c2rs: steps used: 50", b"a"),
          ("--steps", "50")),
    run_c("a call of another function", "int rand(void); int main(void) { return rand(); }", told(13, "c2rs: call refused: rand")),
    run_c("output before an undefined step",
          'int puts(const char *);\nint main(void) {\n    int n = 0;\n    puts("before");\n    return 1 / n;\n}\n',
          told(5, "a.c:5: undefined: U3 division", b"before\n")),
    run_c("output before a call that is refused",
          'int puts(const char *); int rand(void); int main(void) { puts("before"); return rand(); }',
          told(13, "c2rs: call refused: rand", b"before\n")),
    run_c("a status past a byte", "int main(void) { return 300; }", ended(300)),
    run_c("input of every byte",
          "int getchar(void); int putchar(int); int main(void) { int c; while ((c = getchar()) != -1) putchar(c); return 0; }",
          ended(0, bytes(range(256)) * 64), given=bytes(range(256)) * 64),
)


def run(command, folder, given=b""):
    done = subprocess.run(command, cwd=folder, input=given, capture_output=True, timeout=SECONDS)
    return Shown(done.stdout, done.stderr.decode(errors="replace"), done.returncode)


def given_to(program):
    beside = program.with_suffix(".in")
    return beside.read_bytes() if beside.exists() else b""


def by_gcc(program, folder, checks=()):
    """What gcc's program shows."""
    built = folder / program.stem
    subprocess.run([*GCC, *checks, "-o", built, program], check=True)
    return run([built], folder, given_to(program))


def program_difference(c2rs, program, folder):
    """How `run-c` differs from gcc's program, or None."""
    wanted = by_gcc(program, folder)
    shown = run([c2rs, "run-c", "--steps", "100000000", program.name], PROGRAMS, given_to(program))
    status = ended_status(shown.report)
    if shown.status != 0 or status is None:
        return f"status {shown.status}: {shown.report}"
    if status % 256 != wanted.status:
        return f"ended {status}, and gcc's program {wanted.status}"
    if shown.written != wanted.written:
        return f"wrote {shown.written[:400]!r}, and gcc's program {wanted.written[:400]!r}"
    return None


def undefined_difference(c2rs, program):
    """How the report of an undefined step differs from what the program's own comment says, or None."""
    lines = program.read_text().splitlines()
    marked = [(number, found[1]) for number, line in enumerate(lines, 1) if (found := re.search(r"/\* (U\d+) \*/", line))]
    [(line, rule)] = marked
    if rule != program.stem.upper():
        return f"the comment names {rule}"
    wanted = Shown(b"", f"{program.name}:{line}: undefined: {rule} {RULES[rule]}\n", 5)
    return difference(run([c2rs, "run-c", program.name], UNDEFINED), wanted)


def write(files, folder):
    for name, text in files:
        (folder / name).parent.mkdir(parents=True, exist_ok=True)
        (folder / name).write_text(text)


def shown_of(c2rs, job):
    """What a job over its files shows, in a folder of its own."""
    with tempfile.TemporaryDirectory() as folder:
        write(job.files, Path(folder))
        return run([c2rs, *job.words], folder, job.given)


def job_difference(c2rs, job):
    return difference(shown_of(c2rs, job), job.wanted)


def both_difference(c2rs, text, wanted):
    """A unit is run, translated, and its crate is run."""
    with tempfile.TemporaryDirectory() as folder:
        write((("a.c", text),), Path(folder))
        for words, shows in (("run-c", "a.c"), wanted), (("transpile", "-o", "out", "a.c"), Shown(b"", "", 0)), (("run-rust", "out"), wanted):
            if differs := difference(run([c2rs, *words], folder), shows):
                return f"{words[0]}: {differs}"
    return None


def loops_difference(c2rs):
    """Loops that write one letter until their steps or units are used up."""
    for job in LOOPS:
        shown = shown_of(c2rs, job)
        letters = b"a" * len(shown.written)
        if not letters or shown != Shown(letters, job.wanted.report, job.wanted.status):
            return f"{job.title}: {brief(shown)}"
    return None


def difference(shown, wanted):
    return None if shown == wanted else f"{brief(shown)}, and not {brief(wanted)}"


def brief(shown):
    return f"status {shown.status}, report {shown.report[:200]!r}, output {shown.written[:200]!r}"


def closed_difference(c2rs, text, output, folder):
    """Where standard output is closed or full, a program that writes there fails."""
    (folder / "a.c").write_text(text)
    done = subprocess.run(["sh", "-c", f'"$0" run-c a.c >{output}', c2rs], cwd=folder, capture_output=True, timeout=SECONDS)
    return difference(Shown(done.stdout, done.stderr.decode(), done.returncode), Shown(b"", "c2rs: host failed\n", 9))


def unreported_difference(c2rs, folder):
    """Where standard error is full, the report of a run can't be written."""
    (folder / "a.c").write_text("int main(void) { return 0; }")
    done = subprocess.run(["sh", "-c", '"$0" run-c a.c 2>/dev/full', c2rs], cwd=folder, capture_output=True, timeout=SECONDS)
    return difference(Shown(done.stdout, done.stderr.decode(), done.returncode), Shown(b"", "", 4))


def together_difference(c2rs, folder):
    """Where both streams are one pipe, the report stands behind all that the program wrote."""
    (folder / "a.c").write_text('int puts(const char *); int main(void) { int i; for (i = 0; i < 100; i++) puts("line"); return 0; }')
    done = subprocess.run([c2rs, "run-c", "a.c"], cwd=folder, stdout=subprocess.PIPE, stderr=subprocess.STDOUT, timeout=SECONDS)
    wanted = b"line\n" * 100 + b"c2rs: ended 0\n"
    return None if done.stdout == wanted and done.returncode == 0 else f"{done.stdout[-80:]!r}, status {done.returncode}"


def measured(command, folder):
    """What a program shows, its processor seconds, and the most memory that it had, in megabytes."""
    with open(folder / "written", "w+b") as written, open(folder / "report", "w+b") as report:
        begun = subprocess.Popen(command, cwd=folder, stdin=subprocess.DEVNULL, stdout=written, stderr=report)
        _, status, usage = os.wait4(begun.pid, 0)
        begun.returncode = os.waitstatus_to_exitcode(status)
        written.seek(0)
        report.seek(0)
        shown = Shown(written.read(), report.read().decode(errors="replace"), begun.returncode)
    return shown, usage.ru_utime + usage.ru_stime, usage.ru_maxrss * 1024 / 1e6


def pace_differences(c2rs, folder, paces):
    """Loops of one and of 10 million steps, and a list of 500,000 nodes; what they took is added to `paces`."""
    (folder / "loop.c").write_text(LOOP)
    (folder / "list.c").write_text(LONG_LIST)
    short, _, less = measured([c2rs, "run-c", "--steps", "1000000", "loop.c"], folder)
    yield "a loop of a million steps", difference(short, told(7, "c2rs: steps used: 1000000"))
    for _ in range(TRIES):
        shown, seconds, memory = measured([c2rs, "run-c", "--steps", "10000000", "loop.c"], folder)
        if seconds < MOST_SECONDS:
            break
    paces.append(f"a million steps took {less:.1f} MB, 10 million {seconds:.2f} s and {memory:.1f} MB")
    slow = f"{seconds:.2f} s" if MOST_SECONDS <= seconds else None
    yield "a loop of 10 million steps", difference(shown, told(7, "c2rs: steps used: 10000000")) or slow
    shown, seconds, memory = measured([c2rs, "run-c", "--steps", "1000000000", "list.c"], folder)
    paces.append(f"a list of 500,000 nodes {seconds:.2f} s and {memory:.1f} MB")
    yield "a list of 500,000 nodes", difference(shown, ended(0, b"124999750000\n"))


def deep_difference(c2rs, folder):
    """Calls of a function 100,000 deep end or come to want of memory, within 8 MiB of stack."""
    (folder / "a.c").write_text(DEEP)
    words = ["sh", "-c", 'ulimit -s 8192; "$0" run-c --steps 100000000 a.c', c2rs]
    shown = run(words, folder)
    return None if shown == told(10, "c2rs: out of memory") else difference(shown, ended(100000))


def differences(c2rs, folder, paces):
    for program in sorted(PROGRAMS.glob("*.c")):
        yield program.name, program_difference(c2rs, program, folder)
    for program in sorted(UNDEFINED.glob("*.c")):
        yield program.name, undefined_difference(c2rs, program)
    for job in (*ROWS, *UNITS, *OTHERS, *CRATES):
        yield job.title, job_difference(c2rs, job)
    for text, wanted in BOTH:
        yield f"{text} on both sides", both_difference(c2rs, text, wanted)
    yield "loops of calls on both sides", loops_difference(c2rs)
    for name, text in FAILING_OUTPUTS:
        for output in "&-", "/dev/full":
            yield f"{name} where standard output is {output}", closed_difference(c2rs, text, output, folder)
    yield "a report that can't be written", unreported_difference(c2rs, folder)
    yield "output and report in one pipe", together_difference(c2rs, folder)
    yield "calls 100,000 deep", deep_difference(c2rs, folder)
    yield from pace_differences(c2rs, folder, paces)


def gcc_differences(folder):
    """Programs in which gcc's own checks find something; what isn't freed at the end is none."""
    os.environ["ASAN_OPTIONS"] = "detect_leaks=0"
    for program in sorted(PROGRAMS.glob("*.c")):
        plain, checked = by_gcc(program, folder), by_gcc(program, folder, CHECKS)
        yield program.name, difference(checked, plain)
    for job in UNITS:
        yield job.title, worked_by_gcc(job, folder)


def worked_by_gcc(job, folder):
    """Whether gcc's program of a worked unit shows what the unit is to show."""
    [(name, text)] = job.files
    (folder / name).write_text(text)
    subprocess.run([*GCC, *CHECKS, "-o", folder / "worked", folder / name], check=True)
    wanted = ended_status(job.wanted.report)
    return difference(run([folder / "worked"], folder, job.given), Shown(job.wanted.written, "", wanted % 256))


def ended_status(report):
    """The status that a report says, or None."""
    said = re.fullmatch(r"c2rs: ended (-?\d+)\n", report)
    return int(said[1]) if said else None


def main():
    parser = argparse.ArgumentParser(description=__doc__, formatter_class=argparse.RawDescriptionHelpFormatter)
    parser.add_argument("--c2rs", type=Path)
    parser.add_argument("--gcc-only", action="store_true")
    words = parser.parse_args()
    if words.gcc_only == (words.c2rs is not None):
        parser.error("give --c2rs PROGRAM or --gcc-only")
    count = failed = 0
    paces = []
    with tempfile.TemporaryDirectory() as folder:
        found = gcc_differences(Path(folder)) if words.gcc_only else differences(words.c2rs.resolve(), Path(folder), paces)
        for title, differs in found:
            count += 1
            if differs is not None:
                failed += 1
                print(f"{title}: {differs}")
    print("; ".join((f"{count} looked at, {failed} differ", *paces)))
    return 1 if failed else 0


sys.exit(main())
