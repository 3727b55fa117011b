#!/usr/bin/env python3
"""Random flows: the bodies that are written from them do what a walk along the flow does, and rustc takes them.

    random_flows.py --rows PROGRAM --c2rs PROGRAM [--count N] [--seed N]

Each flow is a row of the stage `body` of group `flows` (crates/flow_rows). Every node calls a function of its own and changes a local, by which
branches go; the calls that the body makes are those of a walk along the flow. All bodies stand in one crate, which rustc builds and which `c2rs run-rust`
runs. Beside the random flows there
are long ones: their texts are in proportion to them and not deep, and they are written in time. Ends with 1 if anything differs, with the first
such flow and its text.
"""

import sys

sys.dont_write_bytecode = True

import subprocess
import tempfile
import time
from dataclasses import dataclass
from pathlib import Path
from random import Random

from random_texts import options_of_rows

SECONDS = 120
LARGEST = 14
STEPS = 400
LONG = 400
# the nodes of the longest flow, and what its row may take: most of that is its shape
LONGEST = 50_000
LONGEST_SECONDS = 60
COMPARISONS = {
    "==": lambda left, right: left == right,
    "!=": lambda left, right: left != right,
    "<": lambda left, right: left < right,
    "<=": lambda left, right: left <= right,
    ">": lambda left, right: left > right,
    ">=": lambda left, right: left >= right,
}


@dataclass(frozen=True)
class Go:
    """To one node."""

    to: int

    @property
    def targets(self):
        return [self.to]

    def words(self):
        return f"go {self.to}"

    def chosen(self, n):
        return self.to


@dataclass(frozen=True)
class If:
    """By a comparison of the local with a number, which may be turned round."""

    operator: str
    number: int
    if_true: int
    if_false: int
    is_turned: bool = False

    @property
    def targets(self):
        return [self.if_true, self.if_false]

    def words(self):
        return f"{'unless' if self.is_turned else 'if'} n {self.operator} {self.number} {self.if_true} {self.if_false}"

    def chosen(self, n):
        return self.if_true if COMPARISONS[self.operator](n, self.number) != self.is_turned else self.if_false


@dataclass(frozen=True)
class Switch:
    """By the value of the local."""

    other: int
    cases: tuple[tuple[int, int], ...]

    @property
    def targets(self):
        return [self.other, *(to for _, to in self.cases)]

    def words(self):
        return f"switch n {self.other} {' '.join(f'{value} {to}' for value, to in self.cases)}"

    def chosen(self, n):
        return dict(self.cases).get(n, self.other)


@dataclass(frozen=True)
class Return:
    """Out of the function."""

    targets = ()

    def words(self):
        return "return"

    def chosen(self, n):
        return None


@dataclass(frozen=True)
class Node:
    """What a node does to the local, and its branch. It calls a function of its own first, if it calls one."""

    last: object
    change: int = 0
    stores: bool = False
    calls: bool = True

    def words(self, number):
        verb = "set" if self.stores else "add"
        changes = f"{verb} n {self.change} " if self.stores or self.change else ""
        return f"{f'do f{number} ' if self.calls else ''}{changes}{self.last.words()}"


def row(nodes):
    return "body " + " | ".join(node.words(number) for number, node in enumerate(nodes))


def is_reached(nodes):
    """Whether every node is reached from the first."""
    reached, left = {0}, [0]
    while left:
        for to in nodes[left.pop()].last.targets:
            if to not in reached:
                reached.add(to)
                left.append(to)
    return len(reached) == len(nodes)


def walk(nodes):
    """The numbers of the calls, or None where there are too many."""
    calls, at, n = [], 0, 0
    for _ in range(STEPS):
        node = nodes[at]
        if node.calls:
            calls.append(at)
        n = node.change if node.stores else n + node.change
        at = node.last.chosen(n)
        if at is None:
            return calls
    return None


# ---- random flows


def random_branch(random, count):
    any_node = lambda: random.randrange(count)
    kind = random.random()
    if kind < 0.3:
        return Go(any_node())
    if kind < 0.75:
        return If(random.choice(list(COMPARISONS)), random.randint(0, 6), any_node(), any_node(), random.random() < 0.2)
    if kind < 0.9:
        values = random.sample(range(7), random.randint(1, 4))
        return Switch(any_node(), tuple((value, any_node()) for value in values))
    return Return()


def random_flow(random):
    """A flow of which every node is reached, and that ends soon."""
    while True:
        count = random.randint(1, LARGEST)
        nodes = [Node(random_branch(random, count), random.choice([0, 1, 1, 1, 2]), random.random() < 0.05, random.random() < 0.85) for _ in range(count)]
        if is_reached(nodes) and walk(nodes) is not None:
            return nodes


# ---- long flows


def many_ifs(count):
    nodes = []
    for number in range(count):
        nodes += [Node(If("==", number, 2 * number + 1, 2 * number + 2), calls=False), Node(Go(2 * number + 2))]
    return [*nodes, Node(Return())]


def many_returns(count):
    nodes = []
    for number in range(count):
        nodes += [Node(If("==", number, 2 * number + 1, 2 * number + 2), calls=False), Node(Return())]
    return [*nodes, Node(Return())]


def many_continues(count):
    nodes = [Node(If(">", 100, 2 * count + 2, 1), 1, calls=False)]
    for number in range(count):
        nodes += [Node(If("==", number, 2 * number + 2, 2 * number + 3 if number + 1 < count else 2 * count + 1), calls=False), Node(Go(0))]
    return [*nodes, Node(Go(0)), Node(Return())]


def depth_of(lines):
    depth = deepest = 0
    for line in lines:
        depth -= line.startswith("}")
        deepest = max(deepest, depth)
        depth += line.endswith("{")
    return deepest


# ---- crates

CARGO = '[package]\nname = "translated"\nversion = "0.0.0"\nedition = "2021"\n'
MAIN = """#![allow(unconditional_panic, arithmetic_overflow)]
mod m;
fn main() {
    unsafe {
        crate::m::run_static_initializers();
        std::process::exit(crate::m::main_0());
    }
}
"""
PUTCHAR = 'extern "C" {\n    pub fn putchar(a0: i32) -> i32;\n}\n'


def function(name, lines, result=""):
    return f'pub unsafe extern "C" fn {name}(){result} {{\n' + "".join(f"    {line}\n" for line in lines) + "}\n"


def letter(number):
    """What the function of a node writes."""
    return chr(ord("a") + number)


def write_crate(folder, texts):
    """A crate that calls each body, which writes a line of the calls that it makes."""
    locals_of_body = ["let mut n: i32 = core::mem::zeroed();", "let mut current_block: u32 = core::mem::zeroed();"]
    calls = [line for number in range(len(texts)) for line in (f"crate::m::body_{number}();", "crate::m::putchar(10i32);")]
    functions = [
        *(function(f"f{number}", [f"crate::m::putchar({ord(letter(number))}i32);"]) for number in range(LARGEST)),
        *(function(f"body_{number}", locals_of_body + text) for number, text in enumerate(texts)),
        function("main_0", [*calls, "return 0i32;"], " -> i32"),
        function("run_static_initializers", []),
    ]
    (folder / "src").mkdir()
    (folder / "Cargo.toml").write_text(CARGO)
    (folder / "src/main.rs").write_text(MAIN)
    (folder / "src/m.rs").write_text(PUTCHAR + "".join(functions))


def answers(rows_program, rows):
    ran = subprocess.run([rows_program], input="\n".join(rows) + "\n", capture_output=True, text=True, timeout=SECONDS, check=True)
    return [line.split(" | ") if line else [] for line in ran.stdout.split("\n")[: len(rows)]]


def lines_of(words, folder):
    """What a program writes that has to end with 0."""
    ran = subprocess.run(words, cwd=folder, capture_output=True, text=True, timeout=SECONDS, check=True)
    return ran.stdout.split("\n")


def compare_random(asked):
    """The first flow whose body does something else, or None."""
    random = Random(asked.seed)
    flows = [random_flow(random) for _ in range(asked.count)]
    texts = answers(asked.rows, [row(nodes) for nodes in flows])
    with tempfile.TemporaryDirectory() as name:
        folder = Path(name)
        (folder / "out").mkdir()
        write_crate(folder / "out", texts)
        subprocess.run(["rustc", "-A", "warnings", "--edition", "2021", "-o", "flows", "out/src/main.rs"], cwd=folder, check=True, timeout=SECONDS)
        written = {"rustc": lines_of(["./flows"], folder), "run-rust": lines_of([asked.c2rs, "run-rust", "out"], folder)}
    for number, (nodes, text) in enumerate(zip(flows, texts)):
        wanted = "".join(letter(at) for at in walk(nodes))
        for by, lines in written.items():
            if lines[number] != wanted:
                return f"{row(nodes)}\nby {by} calls {lines[number]}\nand not {wanted}\n" + "\n".join(text)
    return None


def compare_long(rows_program):
    """What is wrong with the text of a long flow, or None."""
    for make, lines_each, depth in ((many_ifs, 3, 1), (many_returns, 4, 1), (many_continues, 4, 2)):
        (text,) = answers(rows_program, [row(make(LONG))])
        if len(text) > LONG * lines_each + 10 or depth_of(text) > depth:
            return f"{make.__name__}: {len(text)} lines, {depth_of(text)} deep"
    begun = time.monotonic()
    (text,) = answers(rows_program, [row(many_ifs(LONGEST // 2))])
    took = time.monotonic() - begun
    if took > LONGEST_SECONDS or len(text) > LONGEST // 2 * 3 + 10:
        return f"{LONGEST} nodes: {len(text)} lines in {took:.1f} s"
    return None


def main():
    asked = options_of_rows(__doc__.split("\n")[0], "flows", "random flows", 200, 1, by_c2rs=True)
    wrong = compare_random(asked) or compare_long(asked.rows)
    if wrong:
        print(wrong)
        return 1
    print(f"{asked.count} random flows, and long ones")
    return 0


if __name__ == "__main__":
    sys.exit(main())
