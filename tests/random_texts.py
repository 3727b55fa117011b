"""What writers of random text share, and how it is told what came of their texts."""

import sys

sys.dont_write_bytecode = True

import argparse
from collections import Counter
from pathlib import Path
from random import Random


class Choices:
    """Random choices by a seed, and names that differ."""

    def __init__(self, seed):
        self.random = Random(seed)
        self.count = 0

    def new(self, letter):
        self.count += 1
        return f"{letter}{self.count}"

    def likely(self, share):
        return self.random.random() < share

    def one_of(self, *weighed):
        """One of these, each with its weight in front."""
        return self.random.choices([one for _, one in weighed], [weight for weight, _ in weighed])[0]


def options(count):
    """The program, the seeds and how many there are, as the command line says."""
    parser = argparse.ArgumentParser()
    parser.add_argument("--c2rs", required=True, type=Path)
    parser.add_argument("--count", type=int, default=count)
    parser.add_argument("--seed", type=int, default=1)
    given = parser.parse_args()
    return given.c2rs.resolve(), range(given.seed, given.seed + given.count)


def options_of_rows(description, group, what, count, seed, by_c2rs=False):
    """The program of a group of rows, that of c2rs where it is compared too, how many things are made, and the seed, as the command line says."""
    parser = argparse.ArgumentParser(description=description)
    parser.add_argument("--rows", required=True, help=f"the program of the rows of {group}")
    if by_c2rs:
        parser.add_argument("--c2rs", required=True, help="the program c2rs")
    parser.add_argument("--count", type=int, default=count, help=f"how many {what}")
    parser.add_argument("--seed", type=int, default=seed)
    return parser.parse_args()


def tell(what, seeds, outcome):
    """Says what came of each seed, and how the first ones differ; the status of a script that ends so."""
    counts, differences = Counter(), []
    for seed in seeds:
        kind, differs = outcome(seed)
        counts[kind] += 1
        if differs:
            differences.append(f"seed {seed}: {differs}")
    for one in differences[:10]:
        print(one)
    shown = ", ".join(f"{count} {kind}" for kind, count in counts.most_common())
    print(f"{len(seeds)} {what}: {shown}; {len(differences)} differ")
    return 1 if differences or not counts["ended"] else 0
