"""The trees, root and proofs of a set, calculated with hashlib alone from what docs/FORMATS.md says: no code of the
program has a part in it. Sets are given as canonical lines."""

import hashlib
import re
from typing import NamedTuple

MOST = 64
KINDS = {"n": 1, "w": 2, "r": 3}


def digest(content):
    return hashlib.sha256(content).digest()


def number(value, size):
    return value.to_bytes(size, "big")


def id_bytes(name):
    return number(name + 2**63, 8)


def reference(text):
    """The key of a reference that is written as `n1`."""
    return bytes([KINDS[text[0]]]) + id_bytes(int(text[1:]))


def unescaped(text):
    """The bytes of an escaped text."""
    return re.sub(r"%([0-9a-fA-F]+)%", lambda found: chr(int(found[1], 16)), text).encode()


def units(text):
    """Degrees as whole units of 1e-7 degree."""
    whole, _, fraction = text.removeprefix("-").partition(".")
    value = int(whole) * 10**7 + int(fraction.ljust(7, "0"))
    return -value if text.startswith("-") else value


def cell(lon, lat):
    """The row and the column of a location, in four bytes."""
    return number((lat + 900_000_000) // 1_000_000, 2) + number((lon + 1_800_000_000) // 1_000_000, 2)


def items(text):
    return text.split(",") if text else []


def entries_of(lines):
    """The entries of the four trees of a set, as pairs of key and value, by key."""
    trees = {tree: {} for tree in (1, 2, 3, 4)}
    for line in lines:
        name, *rest = line.split(" ")
        field = {it[0]: it[1:] for it in rest}
        key = reference(name)
        trees[1][key] = line.encode()
        for tag in items(field["T"]):
            word, value = map(unescaped, tag.split("="))
            trees[2][word + b"\0" + value + b"\0" + key] = b""
        if "x" in field:
            lon, lat = units(field["x"]), units(field["y"])
            trees[3][cell(lon, lat) + key[1:]] = lon.to_bytes(4, "big", signed=True) + lat.to_bytes(4, "big", signed=True)
        for target in items(field.get("N", "")):
            trees[4][reference(target) + key] = b""
        for member in items(field.get("M", "")):
            trees[4][reference(member.partition("@")[0]) + key] = b""
    return {tree: sorted(found.items()) for tree, found in trees.items()}


class Item(NamedTuple):
    """What a node of the next level says of a node: its greatest key, the entries below it, its digest."""

    key: bytes
    entries: int
    digest: bytes


def leaf(tree, entries):
    """The bytes of a leaf."""
    each = (number(len(key), 2) + key + number(len(value), 4) + value for key, value in entries)
    return bytes([tree, 0]) + number(len(entries), 2) + b"".join(each)


def inner(tree, level, children):
    """The bytes of an inner node."""
    each = (number(len(it.key), 2) + it.key + number(it.entries, 8) + it.digest for it in children)
    return bytes([tree, level]) + number(len(children), 2) + b"".join(each)


def pieces(given, shape, is_marked):
    """What a list is cut into."""
    piece = []
    for item in given:
        piece.append(item)
        if len(piece) == MOST or (shape == 2 and len(piece) > 1 and is_marked(item)):
            yield piece
            piece = []
    if piece:
        yield piece


def tree_of(tree, entries, shape):
    """The levels of a tree, leaves first, each as a list of the bytes of its nodes."""
    cut = list(pieces(entries, shape, lambda entry: digest(entry[0])[0] < 8)) or [[]]
    nodes = [leaf(tree, piece) for piece in cut]
    levels, level = [nodes], 0
    above = [Item(piece[-1][0] if piece else b"", len(piece), digest(node)) for piece, node in zip(cut, nodes)]
    while len(above) > 1:
        level += 1
        cut = list(pieces(above, shape, lambda item: item.digest[0] < 8))
        nodes = [inner(tree, level, piece) for piece in cut]
        levels.append(nodes)
        above = [Item(piece[-1].key, sum(it.entries for it in piece), digest(node)) for piece, node in zip(cut, nodes)]
    return levels


def manifest_of(lines, edition, sequence=0):
    """The manifest of a set, and the levels of its four trees."""
    trees = {tree: tree_of(tree, entries, edition) for tree, entries in entries_of(lines).items()}
    front = b"OSMM" + bytes([edition]) + (number(sequence, 8) if edition == 2 else b"")
    return front + b"".join(digest(levels[-1][0]) for levels in trees.values()), trees


def root_of(lines, edition, sequence=0):
    """The root of a set, in hexadecimal digits."""
    return digest(manifest_of(lines, edition, sequence)[0]).hex()


def proof_of(nodes):
    """The proof that lists these nodes."""
    ordered = sorted(set(nodes), key=digest)
    return b"OSMP\x01" + number(len(ordered), 4) + b"".join(number(len(node), 4) + node for node in ordered)


class Range(NamedTuple):
    """A range of keys."""

    lo: bytes
    hi: bytes
    under: bool

    def has(self, key):
        return self.lo <= key and (key <= self.hi or (self.under and key.startswith(self.hi)))

    def met_by(self, left, greatest):
        """Whether a node with this left bound (None: none) and greatest key meets the range."""
        if greatest < self.lo:
            return False
        return left is None or left < self.hi or (self.under and left.startswith(self.hi))

    def covers(self, left, greatest):
        return left is not None and self.lo <= left and self.has(greatest)


def children_of(node):
    """The children that an inner node names, or None of a leaf."""
    if node[1] == 0:
        return None
    children, at = [], 4
    for _ in range(int.from_bytes(node[2:4], "big")):
        end = at + 2 + int.from_bytes(node[at : at + 2], "big")
        children.append(Item(node[at + 2 : end], int.from_bytes(node[end : end + 8], "big"), node[end + 8 : end + 40]))
        at = end + 40
    return children


def entries_in(node):
    """The entries of a leaf."""
    entries, at = [], 4
    for _ in range(int.from_bytes(node[2:4], "big")):
        end = at + 2 + int.from_bytes(node[at : at + 2], "big")
        size = int.from_bytes(node[end : end + 4], "big")
        entries.append((node[at + 2 : end], node[end + 4 : end + 4 + size]))
        at = end + 4 + size
    return entries


def walk(levels, keys, counts=False):
    """The entries in a range (or their number), the nodes that are fetched, and how many are covered."""
    held = {digest(node): node for nodes in levels for node in nodes}
    found, fetched, covered, waiting = [], [], 0, [(levels[-1][0], None)]
    total = 0
    while waiting:
        node, left = waiting.pop(0)
        fetched.append(node)
        children = children_of(node)
        if children is None:
            inside = [entry for entry in entries_in(node) if keys.has(entry[0])]
            found += inside
            total += len(inside)
            continue
        for child in children:
            if keys.met_by(left, child.key):
                if keys.covers(left, child.key):
                    covered += 1
                    if counts:
                        total += child.entries
                        left = child.key
                        continue
                waiting.append((held[child.digest], left))
            left = child.key
    return (total if counts else found), fetched, covered


def fault_of(node):
    """The code for which bytes are no node, or None."""
    if len(node) < 4:
        return "N1"
    tree, level, count = node[0], node[1], int.from_bytes(node[2:4], "big")
    if not 1 <= tree <= 4 or level > 63:
        return "N5"
    if count > MOST or (level > 0 and count == 0):
        return "N3"
    at, before = 4, None
    for _ in range(count):
        if len(node) < at + 2:
            return "N1"
        end = at + 2 + int.from_bytes(node[at : at + 2], "big")
        size = 4 if level == 0 else 40
        if len(node) < end + size:
            return "N1"
        if level == 0:
            size += int.from_bytes(node[end : end + 4], "big")
            if len(node) < end + size:
                return "N1"
        elif not 1 <= int.from_bytes(node[end : end + 8], "big") <= 2**40:
            return "N3"
        if before is not None and node[at + 2 : end] <= before:
            return "N4"
        before, at = node[at + 2 : end], end + size
    return "N2" if at < len(node) else None
