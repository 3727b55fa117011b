#!/usr/bin/env python3
"""Runs of random crates of the subset by `c2rs run-rust`, against the programs that rustc makes of them.

    random_crates.py --c2rs PROGRAM [--count N] [--seed N]

A crate has one module, of records, static objects, functions and a `main_0`, which writes values along its way and at its end all that its static
objects hold. rustc builds it with its checks: a crate that ends writes the same by both, and where rustc's program panics the run has written the
same up to there and is wrong by the cause of that panic. Ends with 1 if the two differ, with the first ones.
"""

import sys

sys.dont_write_bytecode = True

import re
import subprocess
import tempfile
from dataclasses import dataclass
from pathlib import Path

from random_texts import Choices, options, tell

SECONDS = 60
STEPS = "3000000"
RUSTC = ["rustc", "-A", "warnings", "-A", "unconditional_panic", "-A", "arithmetic_overflow", "--edition", "2021", "-C", "debug-assertions=on"]
WIDTHS = {"i8": 8, "i16": 16, "i32": 32, "i64": 64, "isize": 64, "u8": 8, "u16": 16, "u32": 32, "u64": 64, "usize": 64}
# What a panic says, by the cause that a run tells.
PANICS = (("shift", "shift (left|right) with overflow"), ("divisor", "divisor of zero|divide by zero|(divide|remainder) with overflow"), ("overflow", "with overflow"))
CARGO_UNIT = "int main(void) { return 0; }"
# It writes the sixteen hexadecimal digits of a number, from `a` on.
OUT = """pub unsafe extern "C" fn out(mut value: i64) {
    let mut digit: u32 = core::mem::zeroed();
    digit = 16u32;
    'digits: loop {
        if digit == 0u32 {
            break 'digits;
        }
        digit = digit - 1u32;
        crate::a::putchar(97i32 + (((value >> (digit * 4u32)) & 15i64) as i32));
    }
    crate::a::putchar(10i32);
}"""


@dataclass(frozen=True)
class Expr:
    """The text of an expression, and whether it is one that stands in parentheses as an operand."""

    text: str
    compound: bool = False

    def operand(self):
        return f"({self.text})" if self.compound else self.text


@dataclass(frozen=True)
class Place:
    """A place that is written, and its type: the name of an integer type, `bool`, or of a record."""

    text: str
    type: str


@dataclass(frozen=True)
class Array:
    """A static array, by what points to its first element."""

    pointer: str
    element: str
    length: int


@dataclass(frozen=True)
class Function:
    name: str
    params: tuple
    result: str


class Writer(Choices):
    """The text of a module, as it grows."""

    def __init__(self, seed):
        super().__init__(seed)
        self.records, self.arrays, self.functions = {}, [], []
        # what a function may read and write, and the lines of its body
        self.places, self.counters, self.lines, self.writes = [], [], [], False

    # ---- types and places

    def scalar(self):
        return self.random.choice([*WIDTHS, "bool"])

    def shown(self, type):
        return f"crate::a::{type}" if type in self.records else type

    def object_type(self):
        return self.random.choice(list(self.records)) if self.likely(0.3) else self.scalar()

    def parts(self, place):
        """The scalars in a place."""
        if place.type not in self.records:
            yield place
            return
        for name, type in self.records[place.type]:
            yield from self.parts(Place(f"{place.text}.{name}", type))

    def scalars(self, type):
        return [part.text for place in self.places for part in self.parts(place) if part.type == type]

    # ---- expressions

    def literal(self, type):
        half = 2 ** (WIDTHS[type] - 1)
        low, high = (-half, half - 1) if type[0] == "i" else (0, 2 * half - 1)
        value = self.one_of((8, self.random.randint(0, 20)), (2, self.random.randint(0, min(high, 1000))), (1, high), (1, low), (1, max(low, -9)))
        return Expr(f"{value}{type}", value < 0)

    def value(self, type, depth=3):
        if type == "bool":
            return self.truth(depth)
        here = self.scalars(type)
        if depth <= 0 or self.likely(0.12):
            return Expr(self.random.choice(here)) if here and self.likely(0.65) else self.literal(type)
        return self.one_of(
            (8, self.joined), (6, self.small_joined), (10, self.wrapped), (8, self.divided), (10, self.masked), (7, self.shifted), (6, self.turned),
            (18, self.cast), (5, self.chosen), (6, self.called), (4, self.element),
        )(type, depth - 1)

    def operand(self, type, depth):
        return self.value(type, depth).operand()

    def small(self, type, depth):
        return f"({self.operand(type, depth)} & {self.random.choice((7, 15, 63))}{type})"

    def joined(self, type, depth):
        return Expr(f"{self.operand(type, depth)} {self.random.choice('+-')} {self.operand(type, depth)}", True)

    def small_joined(self, type, depth):
        return Expr(f"{self.small(type, depth)} {self.random.choice('+*')} {self.small(type, depth)}", True)

    def wrapped(self, type, depth):
        if self.likely(0.3):
            return Expr(f"{self.operand(type, depth)}.wrapping_neg()")
        return Expr(f"{self.operand(type, depth)}.wrapping_{self.random.choice(('add', 'sub', 'mul'))}({self.value(type, depth).text})")

    def divided(self, type, depth):
        divisor = self.operand(type, depth) if self.likely(0.05) else f"({self.operand(type, depth)} | 1{type})"
        return Expr(f"{self.operand(type, depth)} {self.random.choice('/%')} {divisor}", True)

    def masked(self, type, depth):
        return Expr(f"{self.operand(type, depth)} {self.random.choice('&|^')} {self.operand(type, depth)}", True)

    def shifted(self, type, depth):
        count = self.operand("u32", depth) if self.likely(0.03) else f"({self.operand('u32', depth)} & {WIDTHS[type] - 1}u32)"
        return Expr(f"{self.operand(type, depth)} {self.random.choice(('<<', '>>'))} {count}", True)

    def turned(self, type, depth):
        of = self.value(type, depth)
        if type[0] == "i" and self.likely(0.3) and not re.match(r"-?\d", of.text):
            return Expr(f"-{of.operand()}", True)
        return Expr(f"!{of.operand()}", True)

    def cast(self, type, depth):
        return Expr(f"{self.operand(self.scalar(), depth)} as {type}", True)

    def chosen(self, type, depth):
        return Expr(f"if {self.truth(depth).text} {{ {self.value(type, depth).text} }} else {{ {self.value(type, depth).text} }}", True)

    def called(self, type, depth):
        fit = [one for one in self.functions if one.result == type]
        if not fit:
            return self.wrapped(type, depth)
        one = self.random.choice(fit)
        return Expr(f"crate::a::{one.name}({', '.join(self.value(param, depth - 1).text for param in one.params)})")

    def element(self, type, depth):
        fit = [one for one in self.arrays if one.element == type]
        return Expr(self.element_of(self.random.choice(fit)), True) if fit else self.cast(type, depth)

    def element_of(self, array):
        index = self.random.randrange(array.length)
        return f"*{array.pointer}.offset({index}isize)"

    def truth(self, depth):
        here = [*self.scalars("bool"), "true", "false"]
        if depth <= 0 or self.likely(0.1):
            return Expr(self.random.choice(here))
        type = self.scalar()
        orders = ("==", "!=") if type == "bool" else ("<", ">", "<=", ">=", "==", "!=")
        part = lambda: self.operand("bool", depth - 1)
        return self.one_of(
            (6, lambda: Expr(f"{self.operand(type, depth - 1)} {self.random.choice(orders)} {self.operand(type, depth - 1)}", True)),
            (2, lambda: Expr(f"{part()} {self.random.choice(('&&', '||'))} {part()}", True)),
            (1, lambda: Expr(f"{part()} {self.random.choice('&|^')} {part()}", True)),
            (1, lambda: Expr(f"!{part()}", True)),
            (1, lambda: self.chosen("bool", depth - 1)),
        )()

    # ---- statements

    def line(self, level, text):
        self.lines.append("    " * level + text)

    def statements(self, level, depth, labels, count=None):
        for _ in range(count or self.random.randint(1, 3)):
            nested = ((3, self.branch), (3, self.loop), (2, self.block), (2, self.match), (1, self.leave)) if depth > 0 else ()
            self.one_of((8, self.assign), (2, self.write), *nested)(level, depth, labels)

    def assign(self, level, depth, labels):
        if self.writes and self.arrays and self.likely(0.15):
            array = self.random.choice(self.arrays)
            return self.line(level, f"{self.element_of(array)} = {self.value(array.element).text};")
        part = self.random.choice([part for place in self.places for part in self.parts(place)])
        self.line(level, f"{part.text} = {self.value(part.type).text};")

    def write(self, level, depth, labels):
        if self.writes:
            return self.line(level, f"crate::a::out({self.value('i64').text});")
        self.assign(level, depth, labels)

    def branch(self, level, depth, labels):
        self.line(level, f"if {self.truth(2).text} {{")
        self.statements(level + 1, depth - 1, labels)
        if self.likely(0.5):
            self.line(level, "} else {")
            self.statements(level + 1, depth - 1, labels)
        self.line(level, "}")

    def loop(self, level, depth, labels):
        label, turn = self.new("l"), self.new("n")
        self.counters.append(turn)
        self.line(level, f"{turn} = 0i32;")
        self.line(level, f"'{label}: loop {{")
        self.line(level + 1, f"if {turn} >= {self.random.randint(1, 4)}i32 {{")
        self.line(level + 2, f"break '{label};")
        self.line(level + 1, "}")
        self.line(level + 1, f"{turn} = {turn} + 1i32;")
        self.statements(level + 1, depth - 1, [*labels, (label, ("break", "continue"))])
        self.line(level, "}")

    def block(self, level, depth, labels):
        label = self.new("l")
        self.line(level, f"'{label}: {{")
        self.statements(level + 1, depth - 1, [*labels, (label, ("break",))])
        self.line(level, "}")

    def match(self, level, depth, labels):
        type = self.random.choice(list(WIDTHS))
        self.line(level, f"match {self.value(type, 2).text} {{")
        arms = [f"{value}{type}" for value in self.random.sample(range(6), self.random.randint(1, 3))]
        for arm in [*arms, "_"]:
            self.line(level + 1, f"{arm} => {{")
            self.statements(level + 2, depth - 1, labels)
            self.line(level + 1, "}")
        self.line(level, "}")

    def leave(self, level, depth, labels):
        if not labels:
            return self.assign(level, depth, labels)
        label, words = self.random.choice(labels)
        self.line(level, f"if {self.truth(2).text} {{")
        self.line(level + 1, f"{self.random.choice(words)} '{label};")
        self.line(level, "}")

    # ---- items

    def record(self, name):
        fields = [(f"f{number}", self.object_type() if self.records else self.scalar()) for number in range(self.random.randint(1, 4))]
        aligned = self.one_of((2, ""), (1, ", align(8)"))
        head = f"#[derive(Copy, Clone)]\n#[repr(C{aligned})]\npub struct {name} {{\n"
        text = head + "".join(f"    pub {field}: {self.shown(type)},\n" for field, type in fields) + "}"
        self.records[name] = fields
        return text

    def static(self, name, type):
        return f"pub static mut {name}: {type} = unsafe {{ core::mem::zeroed() }};"

    def array(self, name):
        element, length = self.random.choice(list(WIDTHS)), self.random.randint(1, 4)
        self.arrays.append(Array(f"(core::ptr::addr_of_mut!(crate::a::{name}) as *mut {element})", element, length))
        return self.static(name, f"[{element}; {length}]")

    def body(self, head, locals, last):
        """A function whose statements are the lines; the counters of its loops are locals, too."""
        own = [*locals, *(Place(turn, "i32") for turn in self.counters)]
        lets = [f"    let mut {one.text}: {self.shown(one.type)} = core::mem::zeroed();" for one in own]
        text = "\n".join([head, *lets, *self.lines, *last, "}"])
        self.lines, self.counters = [], []
        return text

    def locals(self):
        return [Place(self.new("v"), self.object_type()) for _ in range(self.random.randint(1, 3))]

    def function(self, name):
        """A function that changes nothing but its own objects."""
        params = [Place(f"a{number}", self.scalar()) for number in range(self.random.randint(0, 3))]
        locals, result = self.locals(), self.scalar()
        self.places, self.writes = params + locals, False
        self.statements(1, 2, [])
        shown = ", ".join(f"mut {one.text}: {one.type}" for one in params)
        head = f'pub unsafe extern "C" fn {name}({shown}) -> {result} {{'
        text = self.body(head, locals, [f"    return {self.value(result, 2).text};"])
        self.functions.append(Function(name, tuple(one.type for one in params), result))
        return text

    def main(self, statics, arrays):
        locals = self.locals()
        self.places, self.writes, self.arrays = statics + locals, True, arrays
        self.statements(1, 4, [], self.random.randint(5, 12))
        held = [part for place in statics for part in self.parts(place)]
        held += [Place(f"(*{one.pointer}.offset({index}isize))", one.element) for one in arrays for index in range(one.length)]
        for part in held:
            text = part.text if part.type != "i64" else part.text.removeprefix("(").removesuffix(")")
            self.line(1, f"crate::a::out({text}{'' if part.type == 'i64' else ' as i64'});")
        return self.body('pub unsafe extern "C" fn main_0() -> i32 {', locals, ["    return 0i32;"])

    def module(self):
        random = self.random
        items = [self.record(f"r{number}") for number in range(random.randint(1, 3))]
        statics = [Place(f"crate::a::g{number}", self.object_type()) for number in range(random.randint(2, 5))]
        items += [self.static(one.text.removeprefix("crate::a::"), self.shown(one.type)) for one in statics]
        items += [self.array(f"t{number}") for number in range(random.randint(0, 2))]
        arrays, self.arrays = self.arrays, []
        items += ['extern "C" {\n    pub fn putchar(a0: i32) -> i32;\n}', OUT]
        items += [self.function(f"f{number}") for number in range(random.randint(0, 3))]
        items += [self.main(statics, arrays), 'pub unsafe extern "C" fn run_static_initializers() {\n}']
        return "\n".join(items) + "\n"


def run(command, folder):
    return subprocess.run(command, cwd=folder, capture_output=True, text=True, timeout=SECONDS)


def cause(report):
    """The cause for which rustc's program panics, or None where it doesn't."""
    found = re.search(r"panicked at [^\n]*\n(.*)", report)
    return found and next((cause for cause, words in PANICS if re.search(words, found[1])), found[1])


def outcome(c2rs, seed, folder):
    """What came of the crate with this seed, and how both differ, or None. The folder holds the files of a translated unit."""
    (folder / "out/src/a.rs").write_text(Writer(seed).module())
    built = run([*RUSTC, "-o", "program", "out/src/main.rs"], folder)
    if built.returncode:
        return "not built", f"rustc says {built.stderr[:300]!r}"
    wanted = run(["stdbuf", "-o0", "./program"], folder)
    shown = run([c2rs, "run-rust", "--steps", STEPS, "out"], folder)
    panic = cause(wanted.stderr)
    report = f"c2rs: wrong: {panic}\n" if panic else "c2rs: ended 0\n"
    if (shown.returncode, shown.stderr, shown.stdout) != (6 if panic else 0, report, wanted.stdout):
        return "differs", f"run-rust says {shown.stderr.strip()!r}, and rustc's program {wanted.stderr.strip()[:200]!r}; written alike: {wanted.stdout == shown.stdout}"
    return panic or "ended", None


def main():
    c2rs, seeds = options(40)
    with tempfile.TemporaryDirectory() as name:
        folder = Path(name)
        (folder / "a.c").write_text(CARGO_UNIT)
        subprocess.run([c2rs, "transpile", "-o", "out", "a.c"], cwd=folder, check=True)
        return tell("random crates", seeds, lambda seed: outcome(c2rs, seed, folder))


if __name__ == "__main__":
    sys.exit(main())
