#!/usr/bin/env python3
"""Random records of C, as they are written in Rust: rustc lays them out as gcc lays out those of C.

`--rows PROGRAM` writes the records, by the rows of group `records` (crates/record_rows): the module in which they stand, and which
field each member is. rustc tells sizes, alignments and the places of fields. They have to be those that gcc tells of the records of C
(tests/layout_records.py), and the bytes in which gcc finds a bit-field have to be in one field of bytes. Where gcc or rustc isn't there it says so,
and ends with 0.
"""

import re
import shutil
import subprocess
import sys
import tempfile
from dataclasses import dataclass
from pathlib import Path
from random import Random

sys.dont_write_bytecode = True

from layout_records import WORKED, answers_by_gcc, random_rows, record_of
from random_texts import options_of_rows

# names of members: keywords of Rust, words that it has or that the crates have a meaning for, and names like those that fields of bytes get
NAMES = """
abstract as async await become box crate dyn fn gen impl in let loop macro match mod move mut override priv pub ref Self self super trait true
try type typeof unsafe unsized use virtual where yield false final bits bits_0 bits_1 core std Option Some None i8 u64 usize bool main main_0
run_static_initializers current_block x x_0 x_1 _ _a lit val t
""".split()
BETWEEN = " | "


def row_of(random, number, records):
    """The row of some records: the module `m` with this number, a tag for each, and names for the members."""
    return "records " + BETWEEN.join([f"m{number}", *(record_in_row(random, index, one) for index, one in enumerate(records))])


def record_in_row(random, number, record):
    names = random.sample(NAMES, len(record.members))
    words = [record.kind(), random.choice([f"r{number}", "type", "Self"])]
    for index, (name, member) in enumerate(zip(names, record.members)):
        name = random.choice([name, f"m{index}"]) if member.is_named else ""
        words.append(f"{name}={member.row().removeprefix('~')}")
    return " ".join(words)


# ---- what is written


@dataclass(frozen=True)
class Written:
    """A record as it is written: its name, its fields with their types, and for each member its field, or None."""

    name: str
    fields: tuple
    members: tuple

    def bytes_fields(self):
        """The fields in which bit-fields stand, with how many bytes each has."""
        for name, ty in self.fields:
            count = re.fullmatch(r"\[u8; (\d+)\]", ty)
            if count and re.fullmatch(r"bits(_\d+)?", name) and name not in self.members:
                yield name, int(count[1])


def written_in(answer):
    """The text of the module, and the records in it."""
    text, *members = answer.split(" |")
    text = text.replace("$n", "\n")
    heads = list(re.finditer(r"^pub (?:struct|union) (\S+) \{\n((?:    pub .*\n)*)\}$", text, re.MULTILINE))
    if len(heads) != len(members):
        raise ValueError(f"other than {len(members)} records in: {answer}")
    records = []
    for head, line in zip(heads, members):
        fields = tuple(tuple(field.split(": ", 1)) for field in re.findall(r"    pub (.*),", head[2]))
        names = tuple(None if name == "-" else name for name in line.split())
        records.append(Written(head[1], fields, names))
    return text, records


# ---- rustc

HEAD = """#![allow(warnings)]
use core::mem::{align_of, offset_of, size_of};
"""


def asked(path, record):
    """The statement that prints a record's size and alignment, and where each of its fields stands."""
    parts = [f"size_of::<{path}>()", f"align_of::<{path}>()", *(f"offset_of!({path}, {name})" for name, _ in record.fields)]
    return f'    println!("{" ".join(["{}"] * len(parts))}", {", ".join(parts)});'


def program(modules):
    declared, body = [], []
    for number, (text, records) in enumerate(modules):
        declared.append(f"mod m{number} {{\n{text}}}")
        body.extend(asked(f"crate::m{number}::{record.name}", record) for record in records)
    return HEAD + "\n".join(declared) + "\nfn main() {\n" + "\n".join(body) + "\n}\n"


def places_by_rustc(modules, folder):
    """For each record its size, its alignment, and the places of its fields by their names."""
    source = folder / "records.rs"
    source.write_text(program(modules))
    binary = folder / "records_in_rust"
    subprocess.run(["rustc", "--edition", "2021", "-o", binary, source], check=True)
    lines = iter(subprocess.run([binary], check=True, capture_output=True, text=True).stdout.splitlines())
    laid = []
    for _, records in modules:
        for record in records:
            size, align, *places = map(int, next(lines).split())
            laid.append((size, align, dict(zip((name for name, _ in record.fields), places))))
    return laid


# ---- both


def fault_of(record, answer, laid):
    """What is wrong with a record of which gcc tells this, or None."""
    size, align, *places = answer.split()
    own_size, own_align, own_places = laid
    if (own_size, own_align) != (int(size), int(align)):
        return f"{own_size} {own_align} in place of {size} {align}"
    for place, name in zip(places, record.members, strict=True):
        if place == "-":
            continue
        byte, *bits = map(int, place.split("."))
        if not bits and (name is None or own_places[name] != byte):
            return f"the member at {place} is {name}, at {own_places.get(name)}"
        if bits and not is_covered(record, own_places, byte, (sum(bits) + 7) // 8):
            return f"no field has the bytes of the bit-field at {place}"
    return None


def is_covered(record, places, byte, count):
    return any(places[name] <= byte and byte + count <= places[name] + size for name, size in record.bytes_fields())


def faults(modules, answers, laid):
    said = []
    own = iter(laid)
    for (text, records), answer in zip(modules, answers, strict=True):
        for record, by_gcc in zip(records, answer.split(BETWEEN), strict=True):
            fault = fault_of(record, by_gcc, next(own))
            if fault:
                said.append(f"{record.name}: {fault}\n{text}  gcc: {by_gcc}")
    return said


def main():
    options = options_of_rows("Random records of C, as they are written in Rust.", "records", "random records", 60, 17)
    for tool in ("gcc", "rustc"):
        if shutil.which(tool) is None:
            print(f"skipped: {tool} isn't there")
            return 0
    random = Random(options.seed)
    rows = [[record_of(text)] for text, _ in WORKED] + random_rows(random, options.count)
    asked_rows = "".join(row_of(random, number, records) + "\n" for number, records in enumerate(rows))
    answers = subprocess.run([options.rows], input=asked_rows, check=True, capture_output=True, text=True).stdout.splitlines()
    modules = [written_in(answer) for answer in answers]
    with tempfile.TemporaryDirectory() as folder:
        by_gcc = answers_by_gcc(rows, Path(folder))
        laid = places_by_rustc(modules, Path(folder))
    said = faults(modules, by_gcc, laid)
    for fault in said:
        print(fault)
    print(f"{len(laid)} records in {len(rows)} modules, {len(said)} of them laid out otherwise by rustc than by gcc")
    return 1 if said else 0


if __name__ == "__main__":
    sys.exit(main())
