#!/usr/bin/env python3
"""Random crates of names alone: rustc takes each.

`--rows PROGRAM` gives the names, by the rows of group `crates` (crates/crate_rows): of modules after their files, of the items of a module, of the
parameters and locals of its functions, and of the fields of its records. The names of C are keywords of Rust, words that it has, names that the crates
have a meaning for, and names with suffixes like those that are given. Where rustc isn't there it says so, and ends with 0.
"""

import shutil
import subprocess
import sys
import tempfile
from concurrent.futures import ThreadPoolExecutor
from pathlib import Path
from random import Random

sys.dont_write_bytecode = True

from random_texts import options_of_rows

KEYWORDS = """
abstract as async await become box break const continue crate do dyn else enum extern false final fn for gen if impl in let loop macro match mod move
mut override priv pub ref return self Self static struct super trait true try type typeof unsafe unsized use virtual where while yield
""".split()
# keywords of C, which are no names of a program (ISO C99, 6.4.1)
OF_C = set("break const continue do else enum extern for if return static struct while".split())
# `Ok` and `Err` aren't tried: rustc takes no parameter or local of the name of a tuple variant of the prelude, and no name is kept from these two.
WORDS = """
_ None Some Option Result Vec String Box Copy Clone Drop Sized Default ToString core std alloc main main_0 run_static_initializers current_block i8 i16
i32 i64 u8 u16 u32 u64 isize usize bool str f32 f64 drop panic println macro_rules raw safe x x_0 x_0_0 x_1 x_00 fn_0 r s t t_0 lit val ret arg anon bits
bits_0 calloc printf exit abort malloc errno Self_0 crate_0 M _0 __ c_
""".split()
NAMES = [word for word in KEYWORDS if word not in OF_C] + WORDS
STEMS = [*NAMES, "a.b", ".c", "9", "main", "my-list", "list", "..", "~", "x+y", "i32"]


class Unit:
    """The names of a unit of C: its objects, functions and records, and what is in the functions and records."""

    def __init__(self, random):
        pick = lambda most: [random.choice(NAMES) for _ in range(random.randint(0, most))]
        self.objects = pick(8)
        # an item `main` is asked for by no one, since that is the program's own function
        self.objects = [name for name in self.objects if name != "main"]
        self.records = [pick(6) or ["x"] for _ in range(random.randint(1, 3))]
        self.tags = [random.choice(NAMES) for _ in self.records]
        self.functions = [pick(12) for _ in range(random.randint(1, 3))]
        self.titles = [random.choice([name for name in NAMES if name != "main"]) for _ in self.functions]

    def row(self):
        words = ["name given", *self.titles, *self.objects, *self.tags]
        for names in self.functions:
            words += ["@function", *names]
        for names in self.records:
            words += ["@fields", *names]
        return " ".join(words)

    def text(self, answer, is_entry):
        """The module's text, where the row has this answer."""
        given = iter(answer.split()[1:])
        take = lambda names: [next(given) for _ in names]
        titles, objects, tags = take(self.titles), take(self.objects), take(self.tags)
        functions = [take(names) for names in self.functions]
        records = [take(names) for names in self.records]
        parts = [record_text(tag, fields) for tag, fields in zip(tags, records)]
        parts += [f"pub static mut {name}: i32 = unsafe {{ core::mem::zeroed() }};" for name in objects]
        parts += [function_text(title, locals_) for title, locals_ in zip(titles, functions)]
        if is_entry:
            parts.append('pub unsafe extern "C" fn main_0() -> i32 {\n    return 0i32;\n}')
        parts.append('pub unsafe extern "C" fn run_static_initializers() {\n}')
        return "\n".join(parts) + "\n"


def record_text(tag, fields):
    lines = [f"    pub {name}: *mut core::ffi::c_void," for name in fields]
    return "\n".join(["#[derive(Copy, Clone)]", "#[repr(C)]", f"pub struct {tag} {{", *lines, "}"])


def function_text(title, names):
    """A function whose first names are parameters, and the others locals; each is stored and read."""
    half = len(names) // 2
    params = ", ".join(f"mut {name}: i32" for name in names[:half])
    lines = [f"    let mut {name}: i32 = core::mem::zeroed();" for name in names[half:]]
    lines += [f"    {one} = {other};" for one, other in zip(names, names[1:])]
    return "\n".join([f'pub unsafe extern "C" fn {title}({params}) -> i32 {{', *lines, "    return 0i32;", "}"])


class Crate:
    """A program of one to four units, with the names of their files."""

    def __init__(self, random):
        self.units = [Unit(random) for _ in range(random.randint(1, 4))]
        self.files = [f"{random.choice(['', 'dir/', 'a.b/'])}{random.choice(STEMS)}.c" for _ in self.units]

    def rows(self):
        return ["name modules " + " ".join(self.files), *(unit.row() for unit in self.units)]

    def write(self, folder, answers):
        modules = answers[0].split()[1:]
        (folder / "src").mkdir(parents=True)
        for number, (name, unit) in enumerate(zip(modules, self.units, strict=True)):
            (folder / "src" / f"{name}.rs").write_text(unit.text(answers[1 + number], number == 0))
        lines = [f"mod {name};" for name in modules] + ["fn main() {", "    unsafe {"]
        lines += [f"        crate::{name}::run_static_initializers();" for name in modules]
        lines += [f"        std::process::exit(crate::{modules[0]}::main_0());", "    }", "}"]
        (folder / "src" / "main.rs").write_text("\n".join(lines) + "\n")


def refusal(folder):
    """What rustc says against the crate in a folder, or None."""
    words = ["rustc", "--edition", "2021", "-A", "warnings", "--emit=metadata", "-o", folder / "out", folder / "src" / "main.rs"]
    ran = subprocess.run(words, capture_output=True, text=True)
    return ran.stderr if ran.returncode else None


def main():
    options = options_of_rows("Random crates of names alone, by rustc.", "crates", "crates", 40, 18)
    if shutil.which("rustc") is None:
        print("skipped: rustc isn't there")
        return 0
    random = Random(options.seed)
    crates = [Crate(random) for _ in range(options.count)]
    rows = [row for crate in crates for row in crate.rows()]
    asked = "".join(row + "\n" for row in rows)
    answers = iter(subprocess.run([options.rows], input=asked, check=True, capture_output=True, text=True).stdout.splitlines())
    with tempfile.TemporaryDirectory() as top:
        folders = []
        for number, crate in enumerate(crates):
            folders.append(Path(top) / str(number))
            crate.write(folders[-1], [next(answers) for _ in crate.rows()])
        with ThreadPoolExecutor(2) as pool:
            said = [(crate, why) for crate, why in zip(crates, pool.map(refusal, folders)) if why]
    for crate, why in said:
        print("\n".join(crate.rows()) + "\n" + why)
    print(f"{len(crates)} crates of names, {len(said)} of which rustc refuses")
    return 1 if said else 0


if __name__ == "__main__":
    sys.exit(main())
