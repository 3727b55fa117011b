#!/usr/bin/env python3
"""A model of a store with a limit: the expected answers of the rows `turns`.

It draws the same random calls as the stage (the generator of the example for `rand`, ISO C99, 7.20.2.2p5), does them on a
model of memory of its own, and counts the blocks that a limit refuses and the faults that calls answer.

region_turns.py LISTS CALLS SEED BYTES BLOCKS    prints the answer of that row
region_turns.py --rows PROGRAM                   asks the program of the rows for lists of other seeds too
"""
import subprocess
import sys

SIZES = 48
UNSET = ("bits", 0, 0)


class Fault(Exception):
    pass


class Random:
    def __init__(self, seed):
        self.next = seed % 2**31

    def below(self, above):
        self.next = (self.next * 1103515245 + 12345) % 2**31
        return self.next // 65536 % above


class Store:
    """Blocks by their numbers: None for a dead one, or its alignment and its cells."""

    def __init__(self, limit_bytes, limit_blocks):
        self.blocks = []
        self.limit_bytes = limit_bytes
        self.limit_blocks = limit_blocks

    def live(self):
        return [block for block in self.blocks if block is not None]

    def alloc(self, size, align):
        live = self.live()
        if sum(len(cells) for _, cells in live) + size > self.limit_bytes or len(live) == self.limit_blocks:
            return False
        self.blocks.append((align, [UNSET] * size))
        return True

    def find(self, number):
        if number >= len(self.blocks) or self.blocks[number] is None:
            raise Fault("Dead")
        return self.blocks[number]

    def kill(self, number):
        self.find(number)
        self.blocks[number] = None

    def part(self, at, count):
        align, cells = self.find(at[0])
        if at[1] + count > len(cells):
            raise Fault("Outside")
        return align, cells

    def scalar_part(self, at, size):
        align, cells = self.part(at, size)
        if at[1] % size or align < size:
            raise Fault("Misaligned")
        return cells

    def put(self, at, scalar, value):
        size = size_of(scalar)
        self.scalar_part(at, size)[at[1]:at[1] + size] = cells_of(scalar, value)

    def load(self, at, scalar):
        size = size_of(scalar)
        value_of(scalar, self.scalar_part(at, size)[at[1]:at[1] + size])

    def fill(self, at, byte, count):
        _, cells = self.part(at, count)
        cells[at[1]:at[1] + count] = [("bits", byte, 255)] * count

    def copy(self, source, target, count):
        if count == 0:
            return
        self.find(source[0])
        self.find(target[0])
        _, read = self.part(source, count)
        copied = read[source[1]:source[1] + count]
        _, written = self.part(target, count)
        written[target[1]:target[1] + count] = copied

    def field(self, at, bit, width):
        count = (bit + width + 7) // 8
        _, cells = self.part(at, count)
        return cells, [(at[1] + i // 8, i % 8) for i in range(bit, bit + width)], count

    def load_bits(self, at, bit, width):
        cells, places, count = self.field(at, bit, width)
        for byte, place in places:
            cell = cells[byte]
            if cell[0] == "bits" and not cell[2] >> place & 1:
                raise Fault("Unset")
        if any(cell[0] == "pointer" for cell in cells[at[1]:at[1] + count]):
            raise Fault("MixedPointer")

    def put_bits(self, at, bit, width, number):
        cells, places, count = self.field(at, bit, width)
        if any(cell[0] == "pointer" for cell in cells[at[1]:at[1] + count]):
            raise Fault("MixedPointer")
        for index, (byte, place) in enumerate(places):
            _, value, written = cells[byte]
            value = value & ~(1 << place) | (number >> index & 1) << place
            cells[byte] = ("bits", value, written | 1 << place)

    def put_cell(self, at, cell):
        _, cells = self.part(at, 1)
        cells[at[1]] = cell


def size_of(scalar):
    return {"truth": 1, "object": 8, "code": 8}.get(scalar[0]) or scalar[1] // 8


def cells_of(scalar, value):
    if value is None:
        return [("bits", 0, 255)] * 8
    if scalar[0] in ("object", "code"):
        return [("pointer", (scalar[0], value), index) for index in range(8)]
    size = size_of(scalar)
    return [("bits", byte, 255) for byte in (value % 256**size).to_bytes(size, "little")]


def value_of(scalar, cells):
    if any(cell[0] == "bits" and cell[2] != 255 for cell in cells):
        raise Fault("Unset")
    if scalar[0] in ("object", "code"):
        if all(cell[0] == "bits" and cell[1] == 0 for cell in cells):
            return
        first = cells[0]
        wanted = [("pointer", first[1], index) for index in range(8)]
        if first[0] != "pointer" or first[1][0] != scalar[0] or cells != wanted:
            raise Fault("MixedPointer")
    elif any(cell[0] == "pointer" for cell in cells):
        raise Fault("MixedPointer")
    elif scalar[0] == "truth" and cells[0][1] > 1:
        raise Fault("BadBool")


def scalar(random):
    signed = random.below(2) == 1
    kind = random.below(7)
    return [("truth",), *((("whole", width, signed)) for width in (8, 16, 32, 64)), ("object",), ("code",)][kind]


def value(random, kind):
    number = random.below(32768)
    if kind[0] == "truth":
        return number % 2
    if kind[0] == "whole":
        return number - 16384
    if number < 4096:
        return None
    return (number % 16, number // 16) if kind[0] == "object" else number % 64


def cell(random):
    first = random.below(256)
    second = random.below(256)
    return ("pointer", ("code", first), second % 8) if second < 32 else ("bits", first, second)


def block(store, random):
    return max(len(store.blocks) - random.below(12), 0)


def place(store, random):
    number = block(store, random)
    offset = random.below(SIZES)
    return (number, offset) if random.below(4) == 0 else (number, offset // 8 * 8)


def field_place(random):
    bit = random.below(8)
    return bit, random.below(32) + 1


def turn(store, random):
    """Whether a block was refused; a fault is raised."""
    kind = random.below(14)
    if kind < 3:
        size = random.below(SIZES)
        return not store.alloc(size, 1 << random.below(5))
    if kind < 5:
        store.kill(block(store, random))
    elif kind < 7:
        at = place(store, random)
        type_ = scalar(random)
        store.put(at, type_, value(random, type_))
    elif kind < 9:
        at = place(store, random)
        store.load(at, scalar(random))
    elif kind == 9:
        at = place(store, random)
        byte = random.below(256)
        store.fill(at, byte, random.below(24))
    elif kind == 10:
        source = place(store, random)
        target = place(store, random)
        store.copy(source, target, random.below(24))
    elif kind == 11:
        at = place(store, random)
        bit, width = field_place(random)
        store.put_bits(at, bit, width, random.below(32768) % 2**width)
    elif kind == 12:
        at = place(store, random)
        store.load_bits(at, *field_place(random))
    else:
        at = place(store, random)
        store.put_cell(at, cell(random))
    return False


def answer(lists, calls, seed, limit_bytes, limit_blocks):
    random = Random(seed)
    refused = faults = 0
    for _ in range(lists):
        store = Store(limit_bytes, limit_blocks)
        for _ in range(calls):
            try:
                refused += turn(store, random)
            except Fault:
                faults += 1
    return f"same, {refused} refused, {faults} faults"


def main():
    if sys.argv[1] != "--rows":
        print(answer(*map(int, sys.argv[1:6])))
        return 0
    asked = [(40, 200, seed, 50 * (seed % 9), seed % 13) for seed in range(1, 26)]
    rows = "".join("turns %d %d %d %d %d\n" % row for row in asked)
    given = subprocess.run([sys.argv[2]], input=rows, capture_output=True, text=True).stdout.splitlines()
    wrong = [row for row, line in zip(asked, given) if line != answer(*row)]
    if wrong or len(given) != len(asked):
        print(f"differs at {wrong[:3]}, {len(given)} answers")
        return 1
    print(f"{len(asked) * 40} lists of 200 calls, all as the model has them")
    return 0


if __name__ == "__main__":
    sys.exit(main())
