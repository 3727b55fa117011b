#!/usr/bin/env python3
"""Random records, laid out by a model of the System V ABI for x86-64 and by gcc: the two have to agree.

The model shares nothing with the program. gcc tells sizes by `sizeof`, places by `offsetof`, and the place of a
bit-field by the bits that a store of -1 changes.

Without a word it compares the two and says how many records agree. `--rows` writes the records as rows of tests, and
`--answers` the answers to these rows as gcc gives them. Where gcc isn't there it says so, and ends with 0.

A row is `layout`, and then records with ` | ` between them, the first of which has the number 0. A record is `struct`
or `union`, and then its members in order. A member is its type, or `TYPE:WIDTH` for a bit-field, with `~` in front
where this has no name. A type is a word of BASIC, `pointer`, or `#NUMBER` for a record in front; the lengths of an
array stand behind it as C writes them, as in `int[3][4]`.

An answer has for each record its size and alignment in bytes, and then where its members stand: `BYTE`, or
`BYTE.BIT.WIDTH` for a bit-field, or `-` where it has no name. Records have ` | ` between them.
"""

import argparse
import shutil
import subprocess
import sys
import tempfile
from dataclasses import dataclass
from pathlib import Path
from random import Random

# the word in a row, the type in C, its size in bytes, and how many bits a bit-field of it may have
BASIC = {
    "bool": ("_Bool", 1, 1),
    "char": ("char", 1, 8),
    "schar": ("signed char", 1, 8),
    "uchar": ("unsigned char", 1, 8),
    "short": ("short", 2, 16),
    "ushort": ("unsigned short", 2, 16),
    "int": ("int", 4, 32),
    "unsigned": ("unsigned", 4, 32),
    "long": ("long", 8, 64),
    "ulong": ("unsigned long", 8, 64),
    "llong": ("long long", 8, 64),
    "ullong": ("unsigned long long", 8, 64),
    "enum": ("enum e", 4, 32),
}
POINTER = "pointer"
POINTER_SIZE = 8
BETWEEN = " | "


@dataclass(frozen=True)
class Member:
    """A member: the word of its type, the dimensions of an array, and for a bit-field its width in bits."""

    word: str
    dimensions: tuple = ()
    width: int | None = None
    is_named: bool = True

    def row(self):
        shape = "".join(f"[{count}]" for count in self.dimensions)
        bits = "" if self.width is None else f":{self.width}"
        return ("" if self.is_named else "~") + self.word + shape + bits


@dataclass(frozen=True)
class Record:
    is_union: bool
    members: tuple

    def kind(self):
        return "union" if self.is_union else "struct"

    def row(self):
        return " ".join([self.kind(), *(member.row() for member in self.members)])


def row_of(records):
    return "layout " + BETWEEN.join(record.row() for record in records)


# ---- the model


@dataclass(frozen=True)
class Laid:
    """A record that is laid out: its size and alignment in bytes, and where its members stand, as answers say it."""

    size: int
    align: int
    places: tuple

    def answer(self):
        return " ".join([str(self.size), str(self.align), *self.places])


def up(number, step):
    """The next multiple of `step`."""
    return -(-number // step) * step


def extent(member, laid):
    """The size and the alignment of a member's type, where the records in front are laid out so."""
    if member.word == POINTER:
        size = align = POINTER_SIZE
    elif member.word.startswith("#"):
        held = laid[int(member.word[1:])]
        size, align = held.size, held.align
    else:
        size = align = BASIC[member.word][1]
    for count in member.dimensions:
        size *= count
    return size, align


def laid_out(record, laid):
    """A record, where the records in front are laid out so. All positions are in bits."""
    free = end = 0
    most = 8
    places = []
    for member in record.members:
        size, align = extent(member, laid)
        if member.width is None:
            begin, bits = up(free, 8 * align), 8 * size
        else:
            unit, bits = 8 * size, member.width
            stays = bits > 0 and free // unit == (free + bits - 1) // unit
            begin = free if stays else up(free, unit)
        if record.is_union:
            begin = 0
        if member.is_named:
            most = max(most, 8 * align)
            bit_place = f"{begin // 8}.{begin % 8}.{bits}"
            places.append(str(begin // 8) if member.width is None else bit_place)
        else:
            places.append("-")
        end = max(end, begin + bits)
        if not record.is_union:
            free = begin + bits
    return Laid(up(end, most) // 8, most // 8, tuple(places))


def answer_by_model(records):
    laid = []
    for record in records:
        laid.append(laid_out(record, laid))
    return BETWEEN.join(one.answer() for one in laid)


# ---- gcc

HEAD = """#include <stddef.h>
#include <stdio.h>
#include <string.h>
enum e { NONE, SOME };
static void bits(const unsigned char *bytes, unsigned size)
{
    unsigned first = 8 * size, after = 0, count = 0, k;
    for (k = 0; k < 8 * size; k++)
        if (bytes[k / 8] >> k % 8 & 1) {
            if (first > k) first = k;
            after = k + 1;
            count++;
        }
    if (count == 0 || count != after - first) printf(" (not in one piece)");
    else printf(" %u.%u.%u", first / 8, first % 8, count);
}
#define BITS(type, member) do { type one; memset(&one, 0, sizeof one); one.member = -1; bits((unsigned char *)&one, sizeof one); } while (0)
#define BYTE(type, member) printf(" %u", (unsigned)offsetof(type, member))
#define SIZES(type) printf("%u %u", (unsigned)sizeof(type), (unsigned)offsetof(struct { char before; type it; }, it))
int main(void)
{
"""


def type_in_c(word, records, row):
    if word == POINTER:
        return "char *"
    if word.startswith("#"):
        number = int(word[1:])
        return f"{records[number].kind()} r{row}_{number}"
    return BASIC[word][0]


def declared(record, number, records, row):
    """The declaration of a record in C. Rows have tags of their own."""
    lines = [f"{record.kind()} r{row}_{number} {{"]
    for index, member in enumerate(record.members):
        name = f"m{index}" if member.is_named else ""
        shape = "".join(f"[{count}]" for count in member.dimensions)
        bits = "" if member.width is None else f" : {member.width}"
        lines.append(f"    {type_in_c(member.word, records, row)} {name}{shape}{bits};")
    return "\n".join([*lines, "};"])


def asked(record, number, row):
    """The statements that print the answer for a record."""
    tag = f"{record.kind()} r{row}_{number}"
    lines = [f"SIZES({tag});"]
    for index, member in enumerate(record.members):
        if not member.is_named:
            lines.append('printf(" -");')
        elif member.width is None:
            lines.append(f"BYTE({tag}, m{index});")
        else:
            lines.append(f"BITS({tag}, m{index});")
    return lines


def program(rows):
    declarations, body = [], []
    for row, records in enumerate(rows):
        for number, record in enumerate(records):
            if number > 0:
                body.append(f'printf("{BETWEEN}");')
            declarations.append(declared(record, number, records, row))
            body.extend(asked(record, number, row))
        body.append('printf("\\n");')
    head, main = HEAD.split("int main", 1)
    inside = "\n".join(f"    {line}" for line in body)
    return head + "\n".join(declarations) + "\nint main" + main + inside + "\n    return 0;\n}\n"


def answers_by_gcc(rows, folder):
    source = folder / "records.c"
    source.write_text(program(rows))
    binary = folder / "records"
    subprocess.run(["gcc", "-std=c99", "-w", "-O0", "-o", binary, source], check=True)
    return subprocess.run([binary], check=True, capture_output=True, text=True).stdout.splitlines()


# ---- records

# records with their answers, worked out by hand
WORKED = [
    ("struct char int:3 int:30 ~unsigned:0 char", "12 4 0 1.0.3 4.0.30 - 8"),
    ("union char[9] int", "12 4 0 0"),
    ("struct short:9 short:9", "4 2 0.0.9 2.0.9"),
    ("struct char int:31", "8 4 0 4.0.31"),
    ("struct char ~long:7 char", "3 1 0 - 2"),
    ("struct char long:7 char", "8 8 0 1.0.7 2"),
    ("union ~int:17 char:3", "3 1 - 0.0.3"),
    ("struct bool:1 bool:1 char", "2 1 0.0.1 0.1.1 1"),
]


def member_of(text):
    of, _, width = text.removeprefix("~").partition(":")
    word, *lengths = of.split("[")
    dimensions = tuple(int(length.removesuffix("]")) for length in lengths)
    return Member(word, dimensions, int(width) if width else None, not text.startswith("~"))


def record_of(text):
    kind, *members = text.split()
    return Record(kind == "union", tuple(member_of(one) for one in members))


def random_bits(random):
    word = random.choice(list(BASIC))
    most = BASIC[word][2]
    is_named = random.random() < 0.8
    width = random.randint(1, most)
    if not is_named and random.random() < 0.5:
        width = 0
    return Member(word, (), width, is_named)


def random_member(random, number, share_of_bits):
    """A member of record `number` of a row, which may hold the records in front."""
    if random.random() < share_of_bits:
        return random_bits(random)
    if number > 0 and random.random() < 0.3:
        word = f"#{random.randrange(number)}"
    else:
        word = random.choice([*BASIC, POINTER])
    ranks = random.choices([0, 1, 2], [6, 3, 1])[0]
    return Member(word, tuple(random.randint(1, 5) for _ in range(ranks)))


def random_record(random, number):
    share_of_bits = random.choice([0.0, 0.3, 0.6, 0.9])
    count = random.randint(1, 8)
    while True:
        members = tuple(random_member(random, number, share_of_bits) for _ in range(count))
        if any(member.is_named for member in members):
            return Record(random.random() < 0.25, members)


def random_rows(random, count):
    """Rows of one to four records, so many records in all."""
    rows = []
    while count > 0:
        size = min(count, random.randint(1, 4))
        records = []
        for number in range(size):
            records.append(random_record(random, number))
        rows.append(records)
        count -= size
    return rows


# ---- what is asked


def faults(rows, answers):
    """The rows on which the model and gcc don't agree, and the worked ones with another answer."""
    said = []
    for records, answer in zip(rows, answers, strict=True):
        model = answer_by_model(records)
        if model != answer:
            said.append(f"{row_of(records)}\n  gcc:   {answer}\n  model: {model}")
    for (text, wanted), answer in zip(WORKED, answers):
        if answer != wanted:
            said.append(f"layout {text}\n  gcc:     {answer}\n  by hand: {wanted}")
    return said


def main():
    parser = argparse.ArgumentParser(description="Random records, laid out by a model and by gcc.")
    parser.add_argument("--count", type=int, default=200, help="how many random records")
    parser.add_argument("--seed", type=int, default=16)
    parser.add_argument("--rows", action="store_true", help="write the rows")
    parser.add_argument("--answers", action="store_true", help="write gcc's answers to the rows")
    options = parser.parse_args()
    rows = [[record_of(text)] for text, _ in WORKED] + random_rows(Random(options.seed), options.count)
    if options.rows:
        print("\n".join(row_of(records) for records in rows))
        return 0
    if shutil.which("gcc") is None:
        print("skipped: gcc isn't there")
        return 0
    with tempfile.TemporaryDirectory() as folder:
        answers = answers_by_gcc(rows, Path(folder))
    if options.answers:
        print("\n".join(answers))
        return 0
    said = faults(rows, answers)
    for fault in said:
        print(fault)
    records = sum(len(row) for row in rows)
    print(f"{records} records in {len(rows)} rows, {len(said)} of them laid out otherwise than by gcc")
    return 1 if said else 0


if __name__ == "__main__":
    sys.exit(main())
