#!/usr/bin/env python3
"""Runs of crates against the programs that rustc makes.

Each row of crates/rows/stdin, of the group `crates`, that asks for a run over a list store, and whose answer in crates/rows/stdout is that
it ended, is built by rustc with the `main.rs` of a crate of one module. The program has to end with the same status
and to write what the calls of the answer write. Rows that call something else than `putchar` and `puts` are left out,
and so are those whose answers no C library gives. Prints how many programs agreed.
"""

import itertools
import os
import re
import subprocess
import sys
import tempfile

TOP = os.path.dirname(os.path.dirname(os.path.abspath(__file__)))

MAIN = """#![allow(unconditional_panic, arithmetic_overflow)]
mod a;
fn main() {
    unsafe {
        crate::a::run_static_initializers();
        std::process::exit(crate::a::main_0());
    }
}
"""


def lines_of(name):
    """The lines of the group `crates` in a file of crates/rows."""
    with open(f"{TOP}/crates/rows/{name}", encoding="utf-8") as file:
        lines = file.read().split("\n")
    begin = lines.index("= crates") + 1
    return list(itertools.takewhile(lambda line: not line.startswith("= "), lines[begin:]))


def bytes_of(text):
    """The bytes of a text of a row."""
    found = re.split(r"\$(n|[0-9a-f]{2})", text)
    parts = [part.encode() for part in found]
    for at in range(1, len(found), 2):
        parts[at] = b"\n" if found[at] == "n" else bytes([int(found[at], 16)])
    return b"".join(parts)


def written_by(calls):
    """What calls write, or None where one isn't known here."""
    written = b""
    for call in calls:
        event = call.rsplit(" = ", 1)[0]
        if event.startswith("putchar int32:"):
            written += bytes([int(event.split(":")[1]) % 256])
        elif event.startswith("puts text:"):
            written += bytes_of(event.split(":", 1)[1]) + b"\n"
        else:
            return None
    return written


def program_of(folder, text):
    """The program that rustc makes of a crate of one module."""
    with open(f"{folder}/a.rs", "wb") as file:
        file.write(text)
    with open(f"{folder}/main.rs", "w", encoding="utf-8") as file:
        file.write(MAIN)
    words = ["rustc", "-A", "warnings", "--edition", "2021", "-C", "overflow-checks=on"]
    # blocks that are nested deep take much of rustc's stack
    room = {**os.environ, "RUST_MIN_STACK": str(1 << 28)}
    subprocess.run([*words, "-o", f"{folder}/program", f"{folder}/main.rs"], check=True, env=room)
    return f"{folder}/program"


def agrees(folder, asked, answer):
    """Whether a program ends and writes as its row says; None where the row isn't compared."""
    first, *calls = answer.split(" | ")
    ended = re.match(r"ended (-?\d+) ", first)
    setting, text = asked.split(" | ", 1)
    if not ended or setting.split(" ")[2] != "list" or "/" in setting:
        return None
    written = written_by(calls)
    if written is None:
        return None
    ran = subprocess.run([program_of(folder, bytes_of(text))], capture_output=True, check=False)
    # a signal ends a program as a shell says it
    status = ran.returncode if ran.returncode >= 0 else 128 - ran.returncode
    return status == int(ended[1]) % 256 and ran.stdout == written


def main():
    compared = wrong = 0
    with tempfile.TemporaryDirectory() as folder:
        for asked, answer in zip(lines_of("stdin"), lines_of("stdout"), strict=True):
            if not asked.startswith("run "):
                continue
            found = agrees(folder, asked, answer)
            compared += found is not None
            if found is False:
                wrong += 1
                print(f"differs: {asked}: {answer}")
    print(f"runs of crates: {compared} programs of rustc compared, {wrong} differ")
    sys.exit(1 if wrong or not compared else 0)


main()
