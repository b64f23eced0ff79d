#!/usr/bin/env python3
"""Writes nodes as OPL to standard output: make_nodes.py COUNT [--seed SEED] [--tagged SHARE].

Ids rise, with gaps, as in an extract. A share of the nodes (one in ten, if not told) has one or two tags, and one
node in four has all metadata fields, empty as extracts without metadata have them. The same arguments give the
same bytes.
"""

import argparse
import random
import sys

KEYS = ["amenity", "barrier", "highway", "name", "natural", "power", "ref", "surface"]
VALUES = ["bench", "crossing", "gate", "tower", "traffic_signals", "tree", "yes"]
NODES_A_WRITE = 10_000


def degrees(random_state, most):
    """A coordinate of at most 7 decimals within `most` degrees of 0, in its shortest spelling."""
    units = random_state.randint(-most * 10**7, most * 10**7)
    sign = "-" if units < 0 else ""
    whole, part = divmod(abs(units), 10**7)
    decimals = f"{part:07d}".rstrip("0")
    return f"{sign}{whole}.{decimals}" if decimals else f"{sign}{whole}"


def tags(random_state):
    keys = sorted(random_state.sample(KEYS, random_state.randint(1, 2)))
    return ",".join(f"{key}={random_state.choice(VALUES)}{random_state.randint(1, 999)}" for key in keys)


def node(random_state, number, tagged):
    fields = [f"n{number}"]
    if random_state.random() < 0.25:
        fields.append("v0 dV c0 t i0 u")
    if random_state.random() < tagged:
        fields.append(f"T{tags(random_state)}")
    fields.append(f"x{degrees(random_state, 180)} y{degrees(random_state, 90)}\n")
    return " ".join(fields)


def main():
    parser = argparse.ArgumentParser()
    parser.add_argument("count", type=int)
    parser.add_argument("--seed", type=int, default=1)
    parser.add_argument("--tagged", type=float, default=0.1)
    given = parser.parse_args()
    random_state = random.Random(given.seed)
    number = 0
    lines = []
    for _ in range(given.count):
        number += random_state.randint(1, 9)
        lines.append(node(random_state, number, given.tagged))
        if len(lines) == NODES_A_WRITE:
            sys.stdout.write("".join(lines))
            lines.clear()
    sys.stdout.write("".join(lines))


if __name__ == "__main__":
    main()
