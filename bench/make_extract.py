#!/usr/bin/env python3
"""Writes a mixed extract as OPL to standard output: make_extract.py [--share SHARE] [--seed SEED] [--marked].

At share 1 it has 1,000,000 nodes, 150,000 ways and 5,000 relations, some 110 MB, in the order in which extracts
have them: nodes, ways, relations, each by rising id. All have metadata; one node in ten, each way and each relation
have tags, some of them with escapes. With --marked every 11th object has a further tag, `mark=seldom` on every 1,155th
and `mark=often` on the others: 1,000 and 104,000 objects at share 1. The same arguments give the same bytes.
"""

import argparse
import random
import sys

KEYS = ["amenity", "barrier", "building", "highway", "name", "natural", "power", "ref", "source", "surface"]
VALUES = ["bench", "crossing", "gate", "primary", "residential", "tower", "traffic_signals", "tree", "yes"]
NAMES = ["Main%20%Street", "Stra%df%e", "Allee", "A%2c%%20%B", "Caf%e9%", "Weg"]
USERS = ["Ann", "bob", "map%20%per", "Zo%eb%", "some_body"]
ROLES = ["outer", "inner", "", "stop", "from", "to"]
LINES_A_WRITE = 10_000
SELDOM, OFTEN = 1_155, 11


class Extract:
    """The objects, made in turn from one seed."""

    def __init__(self, seed):
        self.random = random.Random(seed)

    def degrees(self, middle):
        """A coordinate within a degree of the middle, in its shortest spelling."""
        units = middle * 10**7 + self.random.randint(-(10**7), 10**7)
        return f"{units / 10**7:.7f}".rstrip("0").rstrip(".")

    def meta(self):
        r = self.random
        month, day = r.randint(1, 12), r.randint(1, 28)
        moment = f"20{r.randint(8, 23):02}-{month:02}-{day:02}T{r.randint(0, 23):02}:{r.randint(0, 59):02}:07Z"
        return f"v{r.randint(1, 9)} dV c{r.randint(1, 10**8)} t{moment} i{r.randint(1, 10**6)} u{r.choice(USERS)}"

    def tags(self, most):
        """From one tag to `most`, by their keys."""
        r = self.random
        keys = sorted(r.sample(KEYS, r.randint(1, most)))
        spelled = (r.choice(NAMES) if key == "name" else f"{r.choice(VALUES)}{r.randint(1, 99)}" for key in keys)
        return ",".join(f"{key}={value}" for key, value in zip(keys, spelled))

    def node(self, number):
        tags = self.tags(3) if self.random.random() < 0.1 else ""
        return f"n{number} {self.meta()} T{tags} x{self.degrees(13)} y{self.degrees(52)}\n"

    def way(self, number, nodes):
        first = self.random.randint(1, nodes)
        refs = ",".join(f"n{first + step}" for step in range(self.random.randint(2, 14)))
        return f"w{number} {self.meta()} T{self.tags(4)} N{refs}\n"

    def relation(self, number, ways):
        r = self.random
        members = ",".join(f"w{r.randint(1, ways)}@{r.choice(ROLES)}" for _ in range(r.randint(1, 20)))
        return f"r{number} {self.meta()} T{self.tags(4)} M{members}\n"

    def lines(self, share):
        nodes, ways, relations = int(1_000_000 * share), int(150_000 * share), int(5_000 * share)
        for number in range(1, nodes + 1):
            yield self.node(number * 3)
        for number in range(1, ways + 1):
            yield self.way(number, nodes)
        for number in range(1, relations + 1):
            yield self.relation(number, ways)


def marked(lines):
    """The same lines, some of them with a further tag."""
    for number, line in enumerate(lines, 1):
        if number % OFTEN:
            yield line
            continue
        before, after = line.split(" T", 1)
        mark = "mark=often" if number % SELDOM else "mark=seldom"
        yield f"{before} T{mark}{'' if after.startswith(' ') else ','}{after}"


def main():
    parser = argparse.ArgumentParser()
    parser.add_argument("--share", type=float, default=1)
    parser.add_argument("--seed", type=int, default=1)
    parser.add_argument("--marked", action="store_true")
    given = parser.parse_args()
    held = []
    lines = Extract(given.seed).lines(given.share)
    for line in marked(lines) if given.marked else lines:
        held.append(line)
        if len(held) == LINES_A_WRITE:
            sys.stdout.write("".join(held))
            held.clear()
    sys.stdout.write("".join(held))


if __name__ == "__main__":
    main()
