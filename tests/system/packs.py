"""Packs, written and read by what docs/FORMATS.md says of them and with hashlib alone: no code of the program has a part in
it. Run by itself it prints the pack of the chapter's example and that of the four objects of the worked queries, and the further file of
the chapter's example."""

import sys
from typing import NamedTuple

from trees import digest, inner, leaf, manifest_of, number, Item

HEADER = 60


class Place(NamedTuple):
    """Where a record stands: its offset, its length and the number of its file."""

    at: int
    length: int
    file: int = 0


def children_of(node):
    """The digests of a node's children, in its order."""
    if node[:4] == b"OSMM":
        tops = node[-128:]
        return [tops[at : at + 32] for at in range(0, 128, 32)]
    count, at, found = int.from_bytes(node[2:4], "big"), 4, []
    if node[1] == 0:
        return []
    for _ in range(count):
        at += 2 + int.from_bytes(node[at : at + 2], "big") + 8
        found.append(node[at : at + 32])
        at += 32
    return found


def in_order(manifest, trees):
    """The nodes of a publication in the order of a pack; a tree is a list of its levels, leaves first."""
    upper = [node for levels in trees for level in reversed(levels[2:]) for node in level]
    middle = [node for levels in trees for level in levels[1:2] for node in level]
    leaves = [node for levels in trees for node in levels[0]]
    return [manifest, *upper, *middle, *leaves]


def place_bytes(place):
    return number(place.file, 2) + number(place.at, 6) + number(place.length, 4)


def places_of(nodes, file=0):
    """Where the records of these nodes stand in the file with a number, by digest."""
    places, at = {}, HEADER
    for node in nodes:
        place = Place(at, 4 + len(node) + 12 * len(children_of(node)), file)
        places[digest(node)] = place
        at += place.length
    return places


def records_of(nodes, places):
    """The records of these nodes; a child's place is the one under its digest."""
    return b"".join(number(len(node), 4) + node + b"".join(place_bytes(places[it]) for it in children_of(node)) for node in nodes)


def pack_of(nodes):
    """The pack of these nodes, of which the first is the manifest."""
    places = places_of(nodes)
    root, records = digest(nodes[0]), records_of(nodes, places)
    place = places[root]
    header = b"OSMK" + number(1, 2) + bytes(2) + root + number(HEADER + len(records), 8) + number(place.at, 8) + number(place.length, 4)
    return header + records


def further_of(file, nodes, old):
    """The further file with a number that has these nodes, of which one is the manifest, beside files in which nodes have their old
    places."""
    places = {**old, **places_of(nodes, file)}
    root, records = digest(next(it for it in nodes if it[:4] == b"OSMM")), records_of(nodes, places)
    header = b"OSMK" + number(2, 2) + bytes(2) + root + number(HEADER + len(records), 8) + place_bytes(places[root])
    return header + records


def record_at(pack, place):
    """The node of a record, and the places of its children."""
    record = pack[place.at : place.at + place.length]
    end = 4 + int.from_bytes(record[:4], "big")
    table = [record[at : at + 12] for at in range(end, len(record), 12)]
    return record[4:end], [Place(int.from_bytes(it[2:8], "big"), int.from_bytes(it[8:], "big")) for it in table]


def nodes_below(pack, wanted, place):
    """The node with this digest, which stands at this place, and all nodes below it."""
    node, places = record_at(pack, place)
    children = children_of(node)
    assert digest(node) == wanted and len(children) == len(places)
    return [node, *(it for child, at in zip(children, places) for it in nodes_below(pack, child, at))]


def nodes_of(pack):
    """The root of a pack, and its nodes from the root down."""
    assert pack[:8] == b"OSMK\0\1\0\0" and len(pack) == int.from_bytes(pack[40:48], "big")
    place = Place(int.from_bytes(pack[48:56], "big"), int.from_bytes(pack[56:60], "big"))
    return pack[8:40], nodes_below(pack, pack[8:40], place)


def example(keys=(b"a", b"b")):
    """The manifest of edition 1 over the tree of tags with two keys, a leaf each, and three empty trees."""
    leaves = [leaf(2, [(key, b"")]) for key in keys]
    top = inner(2, 1, [Item(key, 1, digest(node)) for key, node in zip(keys, leaves)])
    trees = [[[leaf(1, [])]], [leaves, [top]], [[leaf(3, [])]], [[leaf(4, [])]]]
    manifest = b"OSMM\1" + b"".join(digest(levels[-1][0]) for levels in trees)
    return in_order(manifest, trees)


def further_example():
    """The further file with the number 1 that makes the keys `a` and `c` of the example's keys."""
    before, after = example(), example((b"a", b"c"))
    return further_of(1, [node for node in after if node not in before], places_of(before))


def four_objects(sequence=7):
    """The nodes of the four objects of the worked queries, in edition 2."""
    with open(__file__.replace("system/packs.py", "vectors/set-F.opl"), encoding="utf-8") as file:
        lines = canonical(file.read().splitlines())
    manifest, trees = manifest_of(lines, 2, sequence)
    return in_order(manifest, list(trees.values()))


def canonical(lines):
    """The canonical lines of the four objects, as docs/FORMATS.md works them out."""
    fields = {
        "n": "v0 dV c0 t i0 u T x y",
        "w": "v0 dV c0 t i0 u T N",
        "r": "v0 dV c0 t i0 u T M",
    }
    made = []
    for line in lines:
        name, *rest = line.split(" ")
        given = {it[0]: it for it in rest}
        made.append(" ".join([name, *(given.get(it[0], it) for it in fields[name[0]].split(" "))]))
    return made


def literal(pack):
    """The bytes as a literal of the tests."""
    return 'b"' + "".join(f"\\x{it:02x}" for it in pack) + '"'


def main():
    for nodes in (example(), four_objects()):
        pack = pack_of(nodes)
        root, found = nodes_of(pack)
        assert sorted(found) == sorted(nodes)
        print(root.hex(), len(pack), len(nodes))
        print(literal(pack) if "--literal" in sys.argv else pack.hex())
    further = further_example()
    print(further[8:40].hex(), len(further))
    print(literal(further) if "--literal" in sys.argv else further.hex())


if __name__ == "__main__":
    main()
