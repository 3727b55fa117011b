#!/usr/bin/env python3
"""Forms of expressions of C, as the program writes them in Rust, against C: tables that are generated.

    form_tables.py --forms PROGRAM --crates PROGRAM --c2rs PROGRAM [--count N] [--seed N]

The programs for rows of the groups `forms` and `crates` write forms and run crates of them; `c2rs` runs programs of C and crates.

Expressions: an operator with two operands, of any two types that C allows for it (ISO C99, 6.5.5 to 6.5.14), which have values at the limits of
their types: the least and the greatest, 0, -1, null, the first element of an array and one past the last. The conversions that C asks for are
put in here (6.3.1.1, 6.3.1.8). The value by `run-c` is that by `run-rust` of the form, in a crate of one function, and that by gcc's program,
which its checks find nothing in. Where `run-c` says that C gives none the expression doesn't count, and another is drawn.

Bit-fields: one that begins at any bit of a byte, of any width from 1 to 32, with a sign and without. What the forms read and leave of some bytes
is what a model gives, in which a bit-field goes from the lowest bit of the lowest byte on, and what gcc gives for a packed structure.

Ends with 1 if any of these differ, with the first ones.
"""

import sys

sys.dont_write_bytecode = True

import argparse
import re
import subprocess
import tempfile
from dataclasses import dataclass
from pathlib import Path
from random import Random

SECONDS = 600
GCC = ["gcc", "-std=c99", "-O0", "-w"]
CHECKS = ["-fsanitize=undefined"]
CARGO_UNIT = "int main(void) { return 0; }"


def run(command, folder, **how):
    return subprocess.run(command, cwd=folder, capture_output=True, text=True, timeout=SECONDS, **how)


def answers(program, rows):
    """The answers to rows."""
    said = subprocess.run([program], input="".join(f"{row}\n" for row in rows), capture_output=True, text=True, check=True, timeout=SECONDS)
    lines = said.stdout.splitlines()
    assert len(lines) == len(rows), said.stderr
    return lines


# ---- types of C, and the types of Rust that stand for them


@dataclass(frozen=True)
class Whole:
    """An integer type: its name in C, its Rust type, how many bits a value has, and its rank (6.3.1.1)."""

    name: str
    rust: str
    bits: int
    signed: bool
    rank: int

    def limits(self):
        """The least and the greatest value."""
        if self.signed:
            return -(2 ** (self.bits - 1)), 2 ** (self.bits - 1) - 1
        return 0, 2**self.bits - 1

    def values(self):
        least, most = self.limits()
        near = {least, least + 1, -1, 0, 1, 2, 7, 31, 32, 63, most - 1, most}
        return sorted(value for value in near if least <= value <= most)

    def declared(self, name):
        return f"{self.name} {name}"

    def in_c(self, value):
        if value == -(2**63):
            return "(-9223372036854775807LL - 1)"
        if value == -(2**31):
            return "(-2147483647 - 1)"
        return f"{value}{'ULL' if value >= 2**63 else 'LL' if abs(value) >= 2**31 else ''}"

    def in_rust(self, value):
        return ("true" if value else "false") if self.rust == "bool" else f"{value}{self.rust}"


BOOL = Whole("_Bool", "bool", 1, False, 0)
INT = Whole("int", "i32", 32, True, 3)
UNSIGNED = Whole("unsigned", "u32", 32, False, 3)
LONG = Whole("long", "i64", 64, True, 4)
UNSIGNED_LONG = Whole("unsigned long", "u64", 64, False, 4)
LONG_LONG = Whole("long long", "i64", 64, True, 5)
UNSIGNED_LONG_LONG = Whole("unsigned long long", "u64", 64, False, 5)
WHOLES = (
    BOOL,
    Whole("char", "i8", 8, True, 1),
    Whole("signed char", "i8", 8, True, 1),
    Whole("unsigned char", "u8", 8, False, 1),
    Whole("short", "i16", 16, True, 2),
    Whole("unsigned short", "u16", 16, False, 2),
    INT,
    UNSIGNED,
    LONG,
    UNSIGNED_LONG,
    LONG_LONG,
    UNSIGNED_LONG_LONG,
    # gcc gives an enumerated type `int` where an enumerator is negative, and `unsigned` otherwise
    Whole("enum below", "i32", 32, True, 3),
    Whole("enum above", "u32", 32, False, 3),
)
# the unsigned type of each rank
UNSIGNED_OF = {3: UNSIGNED, 4: UNSIGNED_LONG, 5: UNSIGNED_LONG_LONG}


def promoted(one):
    """The type after the integer promotions (6.3.1.1p2)."""
    if one.rank < INT.rank:
        return INT
    return {"enum below": INT, "enum above": UNSIGNED}.get(one.name, one)


def common(left, right):
    """The common type of the usual arithmetic conversions (6.3.1.8)."""
    left, right = promoted(left), promoted(right)
    if left == right:
        return left
    if left.signed == right.signed:
        return max(left, right, key=lambda one: one.rank)
    signed, unsigned = (left, right) if left.signed else (right, left)
    if unsigned.rank >= signed.rank:
        return unsigned
    return signed if signed.bits > unsigned.bits else UNSIGNED_OF[signed.rank]


@dataclass(frozen=True)
class At:
    """A value of a pointer: an array and how many elements behind its first one, or null."""

    array: str | None
    behind: int = 0


@dataclass(frozen=True)
class Pointer:
    """A type of pointers to objects, with the arrays that its values may point to and their lengths."""

    target: str
    rust: str
    arrays: tuple

    def values(self):
        return [At(None), *(At(name, behind) for name, length in self.arrays for behind in (0, 1, length))]

    def declared(self, name):
        return f"{self.target} *{name}"

    def in_c(self, value):
        return "0" if value.array is None else f"{value.array} + {value.behind}"

    def in_rust(self, value):
        if value.array is None:
            return f"core::ptr::null_mut::<{self.rust}>()"
        element = ARRAYS[value.array][1]
        moved = f"(core::ptr::addr_of_mut!({value.array}) as *mut {element}).offset({value.behind}isize)"
        return moved if element == self.rust else f"{moved} as *mut {self.rust}"


@dataclass(frozen=True)
class Code:
    """The type of pointers to functions that take an `int` and give one; a value is a function or null."""

    rust = 'Option<unsafe extern "C" fn(i32) -> i32>'

    def values(self):
        return [None, "f", "g"]

    def declared(self, name):
        return f"int (*{name})(int)"

    def in_c(self, value):
        return value or "0"

    def in_rust(self, value):
        return f'Some(crate::a::{value} as unsafe extern "C" fn(i32) -> i32)' if value else "None"


# the arrays: their elements in C and in Rust, and their lengths
ARRAYS = {"x": ("int", "i32", 4), "y": ("int", "i32", 2), "t": ("char", "i8", 3), "z": ("struct s", "crate::a::s", 3)}


def arrays(*names):
    return tuple((name, ARRAYS[name][2]) for name in names)


TO_INT = Pointer("int", "i32", arrays("x", "y"))
TO_CHAR = Pointer("char", "i8", arrays("t"))
TO_RECORD = Pointer("struct s", "crate::a::s", arrays("z"))
TO_VOID = Pointer("void", "core::ffi::c_void", arrays("x", "t"))
CODE = Code()
OBJECTS = (TO_INT, TO_CHAR, TO_RECORD)
POINTERS = (*OBJECTS, TO_VOID)
SCALARS = (*WHOLES, *POINTERS, CODE)

# ---- expressions

# the word of a step, by operator
ARITHMETIC = {"*": "multiply", "/": "divide", "%": "remainder", "+": "add", "-": "subtract", "&": "bit_and", "^": "bit_xor", "|": "bit_or"}
SHIFTS = {"<<": "shift_left", ">>": "shift_right"}
RELATIONS = {"<": "less", ">": "greater", "<=": "less_or_equal", ">=": "greater_or_equal"}
EQUALITIES = {"==": "equal", "!=": "not_equal"}
LOGIC = {"&&": "and", "||": "or"}
COMPARISONS = {**RELATIONS, **EQUALITIES}


@dataclass(frozen=True)
class Kind:
    """An operator with the types of its operands, and the steps of its form; a right operand without a type is the constant 0."""

    operator: str
    left: object
    right: object
    steps: tuple
    # the type of the result where it is a pointer
    moved: object = None

    def row(self):
        steps = [*self.steps]
        if self.moved:
            # how far it is behind the beginning of its array, in bytes
            steps += ["as *mut i8", "local base *mut i8", "subtract i64"]
        return "value " + " | ".join([*steps, "as i64"])

    def value_in_c(self):
        text = f"a {self.operator} {'b' if self.right else '0'}"
        return f"(char *)({text}) - base" if self.moved else f"(long)({text})"


def shown(type):
    return f"*mut {type.rust}" if isinstance(type, Pointer) else type.rust


def operand(name, type, converted=None):
    steps = [f"local {name} {shown(type)}"]
    return steps + [f"as {converted.rust}"] if converted else steps


def of_wholes(left, right):
    """Each operator between two integers."""
    both = common(left, right)
    converted = operand("a", left, both) + operand("b", right, both)
    for operator, word in ARITHMETIC.items():
        yield Kind(operator, left, right, (*converted, f"{word} {both.rust}"))
    for operator, word in COMPARISONS.items():
        yield Kind(operator, left, right, (*converted, f"{word} i32"))
    for operator, word in SHIFTS.items():
        steps = operand("a", left, promoted(left)) + operand("b", right, promoted(right))
        yield Kind(operator, left, right, (*steps, f"{word} {promoted(left).rust}"))


def of_pointers():
    """Each operator with a pointer to an object."""
    for pointer in OBJECTS:
        for whole in WHOLES:
            yield Kind("+", pointer, whole, (*operand("a", pointer), *operand("b", whole), f"add {shown(pointer)}"), pointer)
            yield Kind("+", whole, pointer, (*operand("a", whole), *operand("b", pointer), f"add {shown(pointer)}"), pointer)
            yield Kind("-", pointer, whole, (*operand("a", pointer), *operand("b", whole), f"subtract {shown(pointer)}"), pointer)
        yield Kind("-", pointer, pointer, (*operand("a", pointer), *operand("b", pointer), "subtract i64"))
    for pointer in POINTERS:
        for operator, word in COMPARISONS.items():
            yield Kind(operator, pointer, pointer, (*operand("a", pointer), *operand("b", pointer), f"{word} i32"))
    for pointer in OBJECTS:
        for operator, word in EQUALITIES.items():
            yield Kind(operator, pointer, TO_VOID, (*operand("a", pointer), *operand("b", TO_VOID), f"{word} i32"))
            yield Kind(operator, TO_VOID, pointer, (*operand("a", TO_VOID), *operand("b", pointer), f"{word} i32"))


def of_scalars():
    """The operators that take any scalars, and comparisons of functions and with null."""
    for left in SCALARS:
        for right in SCALARS:
            for operator, word in LOGIC.items():
                yield Kind(operator, left, right, (*operand("a", left), *operand("b", right), f"{word} i32"))
    for operator, word in EQUALITIES.items():
        yield Kind(operator, CODE, CODE, (*operand("a", CODE), *operand("b", CODE), f"{word} i32"))
        for pointer in (*POINTERS, CODE):
            yield Kind(operator, pointer, None, (*operand("a", pointer), f"null {shown(pointer)}", f"{word} i32"))


def kinds():
    """All operators with all types of operands, by what the operands are."""
    wholes = [kind for left in WHOLES for right in WHOLES for kind in of_wholes(left, right)]
    return wholes, list(of_pointers()), list(of_scalars())


@dataclass(frozen=True)
class Expression:
    """An operator with two operands that have these values."""

    kind: Kind
    left: object
    right: object

    def base(self):
        """The array in which the result points, if it does."""
        if not self.kind.moved:
            return None
        return (self.left if isinstance(self.left, At) else self.right).array

    def operands(self):
        yield "a", self.kind.left, self.left
        if self.kind.right:
            yield "b", self.kind.right, self.right

    def said(self):
        return ", ".join(f"{type.declared(name)} = {type.in_c(value)}" for name, type, value in self.operands()) + f": {self.kind.value_in_c()}"


def drawn(random, groups):
    """A random expression: of two integers in four cases of nine, and with equal values where that can be in a quarter of them."""
    kind = random.choice(random.choices(groups, (4, 3, 2))[0])
    left = random.choice(kind.left.values())
    if not kind.right:
        return Expression(kind, left, None)
    others = kind.right.values()
    return Expression(kind, left, left if left in others and random.random() < 0.25 else random.choice(others))


# ---- programs

HEAD_IN_C = """enum below { LEAST = -1 };
enum above { MOST = 1 };
struct s { int i; char c; };
int printf(const char *, ...);
int f(int v) { return v; }
int g(int v) { return v + 1; }
"""

HEAD_IN_RUST = """#[derive(Copy, Clone)]
#[repr(C)]
pub struct s {
    pub i: i32,
    pub c: i8,
}
pub static mut text: [i8; 5] = [37i8, 108i8, 100i8, 10i8, 0i8];
extern "C" {
    pub fn printf(a0: *mut i8, ...) -> i32;
}
pub unsafe extern "C" fn f(mut v: i32) -> i32 {
    return v;
}
pub unsafe extern "C" fn g(mut v: i32) -> i32 {
    return v + 1i32;
}
"""

TAIL_IN_RUST = 'pub unsafe extern "C" fn run_static_initializers() {\n}\n'


def block_in_c(expression):
    """The statements that write the value of an expression."""
    lines = [f"{element} {name}[{length}];" for name, (element, _, length) in ARRAYS.items()]
    lines += [f"{type.declared(name)} = {type.in_c(value)};" for name, type, value in expression.operands()]
    if expression.kind.moved:
        lines.append(f"char *base = (char *){expression.base() or '0'};")
    lines.append(f'printf("%ld\\n", (long)({expression.kind.value_in_c()}));')
    return "\n".join(f"    {line}" for line in lines)


def program_in_c(expressions):
    blocks = "\n".join(f"    {{\n{block_in_c(one)}\n    }}" for one in expressions)
    return f"{HEAD_IN_C}int main(void)\n{{\n{blocks}\n    return 0;\n}}\n"


def module_of(expression, form):
    """A crate's module that writes the value of a form."""
    lets = [f"let mut {name}: [{element}; {length}] = core::mem::zeroed();" for name, (_, element, length) in ARRAYS.items()]
    lets += [f"let mut {name}: {shown(type)} = core::mem::zeroed();" for name, type, _ in expression.operands()]
    lines = [f"{name} = {type.in_rust(value)};" for name, type, value in expression.operands()]
    if expression.kind.moved:
        lets.append("let mut base: *mut i8 = core::mem::zeroed();")
        array = expression.base()
        lines.append(f"base = {f'core::ptr::addr_of_mut!({array}) as *mut i8' if array else 'core::ptr::null_mut::<i8>()'};")
    lines += [f"crate::a::printf(core::ptr::addr_of_mut!(crate::a::text) as *mut i8, {form});", "return 0i32;"]
    body = "\n".join(f"    {line}" for line in lets + lines)
    return f'{HEAD_IN_RUST}pub unsafe extern "C" fn main_0() -> i32 {{\n{body}\n}}\n{TAIL_IN_RUST}'


def value_in_c(c2rs, expression, folder):
    """The value of an expression by `run-c`, or None where it has none; and what else was said."""
    (folder / "a.c").write_text(program_in_c([expression]))
    ran = run([c2rs, "run-c", "a.c"], folder)
    if ran.returncode == 0:
        return ran.stdout.strip(), None
    said = ran.stderr.strip()
    return None, None if ran.returncode == 5 and " undefined: " in said else f"run-c says {said!r}"


def value_in_rust(c2rs, expression, form, folder):
    """The value of a form by `run-rust`, or what was said."""
    (folder / "out/src/a.rs").write_text(module_of(expression, form))
    ran = run([c2rs, "run-rust", "out"], folder)
    return ran.stdout.strip() if ran.returncode == 0 else f"run-rust says {ran.stderr.strip()!r}"


def values_by_gcc(expressions, folder):
    """The values of expressions by gcc's program, and what its checks said."""
    (folder / "all.c").write_text(program_in_c(expressions))
    built = run([*GCC, *CHECKS, "-o", "all", "all.c"], folder)
    if built.returncode:
        return [], built.stderr[:500]
    ran = run(["./all"], folder)
    return ran.stdout.split(), ran.stderr[:500]


def expressions_with_values(c2rs, random, count, folder):
    """So many random expressions that have a value by `run-c`, with these; how many had none; and what else was said."""
    groups = kinds()
    found, without, said = [], 0, []
    while len(found) < count:
        one = drawn(random, groups)
        value, fault = value_in_c(c2rs, one, folder)
        if fault:
            said.append(f"{one.said()}: {fault}")
            break
        if value is None:
            without += 1
        else:
            found.append((one, value))
    return found, without, said


def expression_table(forms, c2rs, random, count, folder):
    """What is wrong with the table of expressions, and what it has."""
    found, without, said = expressions_with_values(c2rs, random, count, folder)
    texts = answers(forms, [one.kind.row() for one, _ in found])
    by_gcc, checks = values_by_gcc([one for one, _ in found], folder)
    if checks or len(by_gcc) != len(found):
        said.append(f"gcc's program of all expressions says {checks!r}")
        by_gcc = [None] * len(found)
    for (one, value), text, other in zip(found, texts, by_gcc):
        in_rust = value_in_rust(c2rs, one, text, folder)
        if in_rust != value or (other is not None and other != value):
            said.append(f"{one.said()}: {value} by run-c, {other} by gcc, and {in_rust} by {text}")
    sorts = {(one.kind.operator, one.kind.left, one.kind.right) for one, _ in found}
    return said, f"{len(found)} expressions of {len(sorts)} operators with types, {without} without a value"


# ---- bit-fields

SIZE = 6
FIRST = 1
STORED = ("i8", "u8", "i16", "u16", "i32", "u32", "i64", "u64", "bool")


@dataclass(frozen=True)
class Field:
    """A bit-field that begins at a bit of the byte FIRST of SIZE bytes, and what is stored in it, of a Rust type."""

    bit: int
    width: int
    bytes: tuple
    type: str
    value: int

    # -- the model: bits are numbered from the lowest of the lowest byte on

    def number(self):
        return sum(byte << 8 * place for place, byte in enumerate(self.bytes))

    def begin(self):
        return 8 * FIRST + self.bit

    def unsigned(self):
        return self.number() >> self.begin() & (1 << self.width) - 1

    def signed(self):
        return self.unsigned() - (self.unsigned() >> self.width - 1 << self.width)

    def left(self):
        """The bytes after the store."""
        ones = (1 << self.width) - 1
        number = self.number() & ~(ones << self.begin()) | (self.value & ones) << self.begin()
        return tuple(number >> 8 * place & 255 for place in range(SIZE))

    def shown(self):
        return (self.signed(), self.unsigned(), *self.left())

    def said(self):
        return f"{self.width} bits from bit {self.bit} on of {bytes(self.bytes).hex(' ')}, and {self.value} stored as {self.type}"


def fields(random):
    """A bit-field of each width at each bit, in bytes of which all bits are 0, all are 1, and some are."""
    for bit in range(8):
        for width in range(1, 33):
            for held in ((0,) * SIZE, (255,) * SIZE, tuple(random.randrange(256) for _ in range(SIZE))):
                type = random.choice(STORED)
                bits = 1 if type == "bool" else int(type[1:])
                value = random.choice((0, 1, (1 << bits) - 1, 1 << bits - 1, random.getrandbits(bits)))
                if type[0] == "i":
                    value -= value >> bits - 1 << bits
                yield Field(bit, width, held, type, value)


def field_rows(field):
    """The rows that ask for the forms of a field."""
    base = f"local x [u8; {SIZE}] | address u8"
    place = f"{FIRST} {field.bit} {field.width}"
    yield f"value {base} | bits {place} signed"
    yield f"value {base} | bits {place} unsigned | as i64"
    yield f"store {place} | {base} | local v {field.type}"


def literal(type, value):
    return ("true" if value else "false") if type == "bool" else f"{value}{type}"


def field_module(field, signed, unsigned, stores):
    """The module that reads a field twice, stores in it, and tells what the bytes are then."""
    byte = "*(core::ptr::addr_of_mut!(x) as *mut u8).offset({}isize)"
    lines = [f"{byte.format(place)} = {value}u8;" for place, value in enumerate(field.bytes)]
    lines += [f"v = {literal(field.type, field.value)};", f"crate::a::out({signed});", f"crate::a::out({unsigned});"]
    lines += stores.split(" | ")
    lines += [f"crate::a::out(({byte.format(place)}) as i64);" for place in range(SIZE)]
    lets = [f"let mut x: [u8; {SIZE}] = core::mem::zeroed();", f"let mut v: {field.type} = core::mem::zeroed();"]
    body = "\n".join(f"    {line}" for line in [*lets, *lines, "return 0i32;"])
    head = 'extern "C" {\n    pub fn out(a0: i64) -> i32;\n}\n'
    return f'{head}pub unsafe extern "C" fn main_0() -> i32 {{\n{body}\n}}\n{TAIL_IN_RUST}'


def shown_by_forms(forms, crates, list):
    """What the crates of the forms tell of each field."""
    texts = answers(forms, [row for field in list for row in field_rows(field)])
    modules = [field_module(field, *texts[3 * place : 3 * place + 3]) for place, field in enumerate(list)]
    told = answers(crates, ["run 100 list 0 | " + module.replace("\n", "$n") for module in modules])
    return [tuple(int(number) for number in re.findall(r"out int64:(-?\d+)", one)) if one.startswith("ended 0 ") else one for one in told]


FIELDS_IN_C = """#include <stdio.h>
#include <string.h>
static void tell(const unsigned char *bytes)
{
    int k;
    for (k = 0; k < SIZE; k++) printf(" %d", bytes[k]);
    printf("\\n");
}
#define FIELD(pad, width) \\
    struct __attribute__((packed)) { unsigned char first[FIRST]; pad int f : width; } s; \\
    struct __attribute__((packed)) { unsigned char first[FIRST]; pad unsigned f : width; } u;
int main(void)
{
"""


def field_in_c(field):
    pad = f"unsigned before : {field.bit};" if field.bit else ""
    value = f"{field.value}ULL" if field.value >= 0 else f"({field.value + 1}LL - 1)"
    held = ", ".join(str(byte) for byte in field.bytes)
    return (
        f"    {{ unsigned char x[SIZE] = {{ {held} }}; FIELD({pad}, {field.width})\n"
        f'      memcpy(&s, x, sizeof s); memcpy(&u, x, sizeof u); printf("%lld %lld", (long long)s.f, (long long)u.f);\n'
        f"      s.f = {value}; memcpy(x, &s, sizeof s); tell(x); }}"
    )


def shown_by_gcc(list, folder):
    """What gcc's program tells of each field."""
    body = "\n".join(field_in_c(field) for field in list)
    (folder / "fields.c").write_text(f"#define SIZE {SIZE}\n#define FIRST {FIRST}\n{FIELDS_IN_C}{body}\n    return 0;\n}}\n")
    subprocess.run([*GCC, "-o", "fields", "fields.c"], cwd=folder, check=True)
    return [tuple(int(number) for number in line.split()) for line in run(["./fields"], folder).stdout.splitlines()]


def field_table(forms, crates, random, folder):
    """What is wrong with the table of bit-fields, and what it has."""
    list_of = list(fields(random))
    by_gcc, by_forms = shown_by_gcc(list_of, folder), shown_by_forms(forms, crates, list_of)
    said = []
    for field, other, told in zip(list_of, by_gcc, by_forms, strict=True):
        if not field.shown() == other == told:
            said.append(f"{field.said()}: {field.shown()} by the model, {other} by gcc, and {told} by the forms")
    return said, f"{len(list_of)} bit-fields"


def main():
    parser = argparse.ArgumentParser(description="Forms of expressions of C against C.")
    parser.add_argument("--forms", required=True, type=Path, help="answers rows of the group `forms`")
    parser.add_argument("--crates", required=True, type=Path, help="answers rows of the group `crates`")
    parser.add_argument("--c2rs", required=True, type=Path)
    parser.add_argument("--count", type=int, default=200, help="how many expressions")
    parser.add_argument("--seed", type=int, default=7)
    given = parser.parse_args()
    random = Random(given.seed)
    with tempfile.TemporaryDirectory() as name:
        folder = Path(name)
        (folder / "a.c").write_text(CARGO_UNIT)
        subprocess.run([given.c2rs.resolve(), "transpile", "-o", "out", "a.c"], cwd=folder, check=True)
        faults, expressions = expression_table(given.forms.resolve(), given.c2rs.resolve(), random, given.count, folder)
        others, bits = field_table(given.forms.resolve(), given.crates.resolve(), random, folder)
    for fault in (faults + others)[:10]:
        print(fault)
    print(f"{expressions}; {bits}; {len(faults) + len(others)} differ")
    return 1 if faults or others else 0


if __name__ == "__main__":
    sys.exit(main())
