"""Publications as a model: in edition 2, and in edition 3, whose proofs are light. There each object's line is a node of its
own, and each entry that names an object states the digest of its line (crates/light_keys has the keys and values). No program
makes edition 3 yet. A publication gives its root, and the nodes that a query needs by what it asks (asks.py)."""

from bisect import bisect_left
from typing import NamedTuple

import trees
from trees import Item, Range, digest, inner, leaf, number, pieces

LONGEST, TOP = 3_600_000_000, 900_000_000


class Grid(NamedTuple):
    """The cells of tree 3: their height and width in units of 1e-7 degree, and how many bytes a column has."""

    height: int
    width: int
    size: int

    def corner(self, row, column):
        return number(row, 2) + number(column, self.size)

    def ranges(self, box):
        """The ranges of a box: row by row from the south."""
        south, west, north, east = box.whole()
        if south > north:
            return []
        first, last = ((lon + LONGEST // 2) // self.width for lon in (west, east))
        columns = [(first, LONGEST // self.width), (0, last)] if box.crosses() else [(first, last)] if west <= east else []
        rows = range((south + TOP) // self.height, (north + TOP) // self.height + 1)
        return [Range(self.corner(row, one), self.corner(row, other), True) for row in rows for one, other in columns]


COARSE = Grid(1_000_000, 1_000_000, 2)
FINE = Grid(100_000, 1, 4)


class Form(NamedTuple):
    """How a set is published: the edition, and for each tree below which number the first byte of a digest has to be for a
    mark. The trees of edition 2 have shape 2 with 8 in all."""

    edition: int
    marks: dict

    @property
    def grid(self):
        return FINE if self.edition == 3 else COARSE


SHAPE_2 = dict.fromkeys((1, 2, 3, 4), 8)
EDITION_2 = Form(2, SHAPE_2)
LIGHT = Form(3, SHAPE_2)


def fine_cell(key, value, line):
    """The entry of a node in tree 3 of edition 3, from that of edition 2 and the digest of its line."""
    lon, lat = (int.from_bytes(it, "big", signed=True) for it in (value[:4], value[4:]))
    row = (lat + TOP) // FINE.height
    return FINE.corner(row, lon + LONGEST // 2) + key[-8:], value[4:] + line


def entries_of(lines, edition):
    """The entries of the four trees of a set, as pairs of key and value, by key. The last nine bytes of a key of trees 1, 2
    and 4 are the reference of the object that states them; those of tree 3 end with the id of a node."""
    plain = trees.entries_of(lines)
    if edition != 3:
        return plain
    line = {key: digest(value) for key, value in plain[1]}
    stated = {tree: [(key, line[key[-9:]]) for key, _ in plain[tree]] for tree in (1, 2, 4)}
    cells = sorted(fine_cell(key, value, line[b"\1" + key[-8:]]) for key, value in plain[3])
    return {1: stated[1], 2: stated[2], 3: cells, 4: stated[4]}


def four_trees(entries, form):
    """The four trees of a set, from its entries in the form's edition."""
    return {tree: Tree(tree, entries[tree], mark) for tree, mark in form.marks.items()}


class Level(NamedTuple):
    """The nodes of a level of a tree, and what the level above says of them."""

    nodes: list
    items: list
    greatest: list


class Tree:
    """The tree of a list, by levels, leaves first. An item is marked where the first byte of its digest is below `mark`."""

    def __init__(self, tree, entries, mark):
        cut = list(pieces(entries, 2, lambda entry: digest(entry[0])[0] < mark)) or [[]]
        nodes = [leaf(tree, piece) for piece in cut]
        self.levels = []
        self.put(nodes, [Item(piece[-1][0] if piece else b"", len(piece), digest(node)) for piece, node in zip(cut, nodes)])
        while len(nodes) > 1:
            cut = list(pieces(self.levels[-1].items, 2, lambda item: item.digest[0] < mark))
            nodes = [inner(tree, len(self.levels), piece) for piece in cut]
            self.put(nodes, [Item(it[-1].key, sum(item.entries for item in it), digest(node)) for it, node in zip(cut, nodes)])

    def put(self, nodes, items):
        self.levels.append(Level(nodes, items, [item.key for item in items]))

    @property
    def top(self):
        return self.levels[-1].items[0].digest

    def held(self):
        """Each node by its digest."""
        return {item.digest: node for level in self.levels for item, node in zip(level.items, level.nodes)}

    def needed(self, keys, counted=False):
        """The nodes that meet a range, each by its digest; if it is only counted, without those that it covers."""
        for level in self.levels:
            at_top = level is self.levels[-1]
            at = 0 if at_top else bisect_left(level.greatest, keys.lo)
            while at < len(level.nodes):
                left, greatest = level.greatest[at - 1] if at > 0 else None, level.greatest[at]
                if not at_top and not keys.met_by(left, greatest):
                    break
                if at_top or not counted or not keys.covers(left, greatest):
                    yield level.items[at].digest, level.nodes[at]
                at += 1


class Publication:
    """The manifest of a set over its four trees. `lines` has each object's line by its reference."""

    def __init__(self, lines, four, form, sequence=0):
        self.lines, self.trees, self.form = lines, four, form
        tops = b"".join(four[tree].top for tree in (1, 2, 3, 4))
        self.manifest = b"OSMM" + bytes([form.edition]) + number(sequence, 8) + tops

    def root(self):
        return digest(self.manifest).hex()

    def ranges(self, asks):
        """The ranges that are walked, each with its tree."""
        objects = asks.there if self.form.edition == 3 else asks.there | asks.lines | asks.spared
        cells = {(3, keys) for box in asks.boxes for keys in self.form.grid.ranges(box)}
        return asks.walks | cells | {(1, Range(name, name, False)) for name in objects}

    def needed(self, asks, spares=False):
        """The nodes that a query needs, by their digests. With `spares` the lines of candidates that only filters by
        reference are applied to aren't asked for, a variant of edition 3."""
        found = {digest(self.manifest): self.manifest}
        for tree, keys in self.ranges(asks):
            found.update(self.trees[tree].needed(keys))
        for tree, keys in asks.counts:
            found.update(self.trees[tree].needed(keys, counted=True))
        if self.form.edition == 3:
            lines = (self.lines[name].encode() for name in (asks.lines if spares else asks.lines | asks.spared))
            found.update((digest(line), line) for line in lines)
        return found


def proof_of(needed):
    """The proof that lists these nodes, given by their digests."""
    listed = (number(len(needed[it]), 4) + needed[it] for it in sorted(needed))
    return b"OSMP\x01" + number(len(needed), 4) + b"".join(listed)
