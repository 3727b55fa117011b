#!/usr/bin/env python3
"""What `printf` writes, by gcc's program: rows of the group `hosts`, and worked examples for `std_host`.

    printf_rows.py --rows        rows of the group with their answers, `ROW<tab>ANSWER`
    printf_rows.py --examples    the text of crates/std_host/proofs/PrintfExamples.antt

Each line of TABLE is a format with its arguments. A C program prints each of them by `printf`, and writes the count that `printf`
answers. Nothing here comes from the project's own programs.
"""

import subprocess
import sys
import tempfile
from dataclasses import dataclass
from pathlib import Path

LEAST_INT, LEAST_LONG = -(2**31), -(2**63)


@dataclass(frozen=True)
class Arg:
    """An argument: `int`, `unsigned`, `long`, `unsigned long`, or a text."""

    kind: str
    value: object

    def in_c(self):
        if self.kind == "text":
            return c_text(self.value)
        if self.value == LEAST_INT:
            return f"(-{-self.value - 1} - 1)"
        if self.value == LEAST_LONG:
            return f"(-{-self.value - 1}L - 1)"
        return str(self.value) + {"int": "", "unsigned": "u", "long": "L", "unsigned long": "UL"}[self.kind]

    def in_row(self):
        if self.kind == "text":
            return "'" + row_text(self.value)
        return {"int": "i32", "unsigned": "u32", "long": "i64", "unsigned long": "u64"}[self.kind] + ":" + str(self.value)

    def in_antt(self):
        if self.kind == "text":
            return f"text {atom(antt_text(self.value))}"
        return f"{self.kind.replace(' ', '_')} ({antt_number(self.value)})"


def i(value):
    return Arg("int", value)


def u(value):
    return Arg("unsigned", value)


def l(value):
    return Arg("long", value)


def ul(value):
    return Arg("unsigned long", value)


def s(text):
    return Arg("text", text.encode() if isinstance(text, str) else text)


TABLE = {
    "nothing": ("", []),
    "plain_text": ("no conversion", []),
    "newline": ("a\n", []),
    "percent": ("100%%", []),
    "two_percents": ("%%%%", []),
    "percent_and_letter": ("%%d", []),
    "d_zero": ("%d", [i(0)]),
    "d_least": ("%d", [i(LEAST_INT)]),
    "d_greatest": ("%d", [i(2**31 - 1)]),
    "d_minus_one": ("%d", [i(-1)]),
    "d_ten": ("%d", [i(10)]),
    "d_of_unsigned": ("%d", [u(2**32 - 1)]),
    "d_of_unsigned_half": ("%d", [u(2**31)]),
    "i_minus": ("%i", [i(-305)]),
    "u_zero": ("%u", [u(0)]),
    "u_greatest": ("%u", [u(2**32 - 1)]),
    "u_of_minus_one": ("%u", [i(-1)]),
    "u_of_least": ("%u", [i(LEAST_INT)]),
    "x_zero": ("%x", [u(0)]),
    "x_ten": ("%x", [i(10)]),
    "x_sixteen": ("%x", [u(16)]),
    "x_digits": ("%x", [u(0x90ABCDEF)]),
    "x_greatest": ("%x", [u(2**32 - 1)]),
    "x_of_minus_one": ("%x", [i(-1)]),
    "c_letter": ("%c", [i(65)]),
    "c_zero": ("%c", [i(0)]),
    "c_wrapped": ("%c", [i(321)]),
    "c_minus_one": ("%c", [i(-1)]),
    "c_of_unsigned": ("%c", [u(2**32 - 256 + 98)]),
    "ld_zero": ("%ld", [l(0)]),
    "ld_least": ("%ld", [l(LEAST_LONG)]),
    "ld_greatest": ("%ld", [l(2**63 - 1)]),
    "ld_of_unsigned": ("%ld", [ul(2**64 - 2)]),
    "lu_greatest": ("%lu", [ul(2**64 - 1)]),
    "lu_of_minus_one": ("%lu", [l(-1)]),
    "lu_past_int": ("%lu", [ul(2**32)]),
    "lx_zero": ("%lx", [ul(0)]),
    "lx_digits": ("%lx", [ul(0xFEDCBA9876543210)]),
    "lx_of_minus_one": ("%lx", [l(-1)]),
    "s_empty": ("%s", [s("")]),
    "s_text": ("%s", [s("text")]),
    "s_with_percent": ("%s", [s("%d%")]),
    "s_bytes": ("%s", [s(bytes([255, 128, 1]))]),
    "number_and_text": ("%d %s\n", [i(65), s("x")]),
    "text_between": ("<%s|%c|%s>", [s("a"), i(98), s("c")]),
    "all_kinds": (
        "%d%i%u%x%c%ld%lu%lx%s%%",
        [i(-1), i(2), u(3), u(26), i(44), l(-5), ul(6), ul(27), s("!")],
    ),
    "beside_each_other": ("%d%d%d", [i(1), i(-2), i(3)]),
    "long_letter_behind": ("%ldd", [l(7)]),
    "percent_first": ("%%%d%%", [i(5)]),
}

# These don't fit: what the standard leaves undefined, or what the host doesn't know.
MISFITS = {
    "argument_missing": ("%d", []),
    "second_argument_missing": ("%d%d", [i(1)]),
    "argument_left_over": ("", [i(1)]),
    "second_argument_left_over": ("%d", [i(1), i(2)]),
    "percent_takes_none": ("%%", [i(1)]),
    "d_of_long": ("%d", [l(1)]),
    "u_of_long": ("%u", [ul(1)]),
    "x_of_long": ("%x", [l(1)]),
    "c_of_long": ("%c", [l(65)]),
    "ld_of_int": ("%ld", [i(1)]),
    "lu_of_int": ("%lu", [u(1)]),
    "lx_of_int": ("%lx", [i(1)]),
    "d_of_text": ("%d", [s("1")]),
    "c_of_text": ("%c", [s("c")]),
    "ld_of_text": ("%ld", [s("1")]),
    "s_of_int": ("%s", [i(0)]),
    "s_of_long": ("%s", [l(0)]),
    "lone_percent": ("%", []),
    "percent_at_the_end": ("%d%", [i(1)]),
    "l_at_the_end": ("%l", [l(1)]),
    "unknown_letter": ("%q", [i(1)]),
    "octal": ("%o", [u(1)]),
    "upper_hexadecimal": ("%X", [u(1)]),
    "pointer": ("%p", [s("a")]),
    "width": ("%5d", [i(1)]),
    "precision": ("%.2s", [s("abc")]),
    "flag": ("%-d", [i(1)]),
    "long_i": ("%li", [l(1)]),
    "long_c": ("%lc", [l(65)]),
    "long_s": ("%ls", [s("a")]),
    "long_long": ("%lld", [l(1)]),
    "half": ("%hd", [i(1)]),
    "blank": ("% d", [i(1)]),
    "count_written": ("%n", [s("a")]),
    "long_percent": ("%l%", []),
}



def c_text(data):
    return '"' + "".join(f"\\{byte:03o}" for byte in data) + '"'


def row_text(data):
    kept = set(range(33, 127)) - set(b"$;")
    return "".join(chr(byte) if byte in kept else f"${byte:02x}" for byte in data)


def answer_text(data):
    return "".join("$n" if byte == 10 else f"${byte:02x}" if byte not in range(32, 127) or byte == 36 else chr(byte) for byte in data)


def antt_number(value):
    return f"pos {value}" if value >= 0 else f"negsuc {-value - 1}"


def antt_text(data):
    if data and all(32 <= byte < 127 and byte not in b'"\\' for byte in data):
        return f'codes "{data.decode()}"'
    return "".join(f"{byte} ∷ " for byte in data) + "[]"


def printed_by_gcc():
    """What gcc's program writes for each row, and the count that `printf` answers."""
    lines = ["#include <stdio.h>", "int main(void) {"]
    for form, args in TABLE.values():
        given = "".join(", " + arg.in_c() for arg in args)
        lines.append(f"    {{ int n = printf({c_text(form.encode())}{given}); fflush(stdout); fprintf(stderr, \"%d\\n\", n); }}")
    lines += ["    return 0;", "}"]
    with tempfile.TemporaryDirectory() as folder:
        source, program = Path(folder, "rows.c"), Path(folder, "rows")
        source.write_text("\n".join(lines))
        subprocess.run(["gcc", "-std=c99", "-w", "-o", program, source], check=True)
        done = subprocess.run([program], capture_output=True, check=True)
    rest, answers = done.stdout, {}
    for name, count in zip(TABLE, map(int, done.stderr.split()), strict=True):
        answers[name], rest = rest[:count], rest[count:]
    if rest:
        sys.exit("gcc's program wrote more than it said")
    return answers


def atom(term):
    return f"({term})" if " " in term else term


def call(form, args):
    return " ".join(["' - - 99 | printf", "'" + row_text(form.encode())] + [arg.in_row() for arg in args])


def rows(answers):
    for name, (form, args) in TABLE.items():
        text = answers[name]
        yield f"{call(form, args)}\t{len(text)} | {answer_text(text)} | {answer_text(text)}"
    for form, args in MISFITS.values():
        yield f"{call(form, args)}\trefused |  | none"


HEAD = """-- Worked examples of formats: what gcc's programs print, and what doesn't fit. tests/printf_rows.py prints this file.
use Rattle.std.proofs.Common.{◌≡◌, ℕ, ℤ, pos, negsuc, true, false, List, [], ◌∷◌, Some, None, codes, refl}
use Rattle.std.specs.Fmt.{digits}
use Rattle.cr_base.specs.declared.scalar.Scalar.TheVariants.{Whole as Integer}
use Rattle.ext_calls.specs.declared.call.Arg.{Arg}
use Rattle.ext_calls.specs.declared.call.Arg.TheVariants.{Whole, Text as TextArg}
use Rattle.std_host.specs.Formats.{formatted}

abbrev int : ℤ → Arg
int value = Whole (Integer 32 true) value

abbrev unsigned : ℤ → Arg
unsigned value = Whole (Integer 32 false) value

abbrev long : ℤ → Arg
long value = Whole (Integer 64 true) value

abbrev unsigned_long : ℤ → Arg
unsigned_long value = Whole (Integer 64 false) value

abbrev text : List ℕ → Arg
text bytes = TextArg bytes
"""


def example(name, form, args, wanted):
    given = atom("".join(arg.in_antt() + " ∷ " for arg in args) + "[]")
    return f"\n{name} : formatted {atom(antt_text(form.encode()))} {given} ≡ {wanted}\nunfolding digits\n{name} = refl\n"


def examples(answers):
    parts = [HEAD]
    for name, (form, args) in TABLE.items():
        parts.append(example(name, form, args, f"Some {atom(antt_text(answers[name]))}"))
    for name, (form, args) in MISFITS.items():
        parts.append(example(name, form, args, "None"))
    return "".join(parts)


def main():
    answers = printed_by_gcc()
    if sys.argv[1:] == ["--rows"]:
        print("\n".join(rows(answers)))
    elif sys.argv[1:] == ["--examples"]:
        print(examples(answers), end="")
    else:
        sys.exit(__doc__)


main()
