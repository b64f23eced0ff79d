"""Sizes of proofs in edition 2 and in forms of edition 3, by a model (see light_sizes.sh): light_sizes.py FILE. No program
makes edition 3 yet. Prints tables of means over seeded samples of each sort of query."""

import random
import sys
import zlib
from bisect import bisect_left, bisect_right
from collections import Counter
from pathlib import Path
from statistics import mean
from typing import NamedTuple

TOP = Path(__file__).resolve().parents[1]
sys.path.insert(0, str(TOP / "tests/system"))
# pylint: disable=wrong-import-position
from asks import World, asked_by, of_kinds
from elements import canonical, degrees
from light_trees import EDITION_2, LIGHT, SHAPE_2, Form, Publication, entries_of, proof_of, Tree

# The forms that are compared. A mark below 32 is one item in 8, below 8 one in 32.
FORMS = {
    "Edition 2": EDITION_2,
    "Edition 3": LIGHT,
    "1/8 in tree 1": Form(3, SHAPE_2 | {1: 32}),
    "1/8 in trees 1 and 4": Form(3, SHAPE_2 | {1: 32, 4: 32}),
}
# As the mirror's front server compresses (docs/PERFORMANCE.md, "Content coding").
LEVEL = 5
WIDEST = 1_800_000_000


class BuiltTrees:
    """The trees of a set, each built once for all forms that have it."""

    def __init__(self, entries):
        self.entries, self.trees = entries, {}

    @staticmethod
    def over(lines):
        return BuiltTrees({edition: entries_of(lines, edition) for edition in (2, 3)})

    def tree(self, edition, tree, mark):
        if (edition, tree, mark) not in self.trees:
            self.trees[edition, tree, mark] = Tree(tree, self.entries[edition][tree], mark)
        return self.trees[edition, tree, mark]

    def four(self, form):
        return {tree: self.tree(form.edition, tree, mark) for tree, mark in form.marks.items()}


def id_of(name):
    return int.from_bytes(name[1:], "big") - 2**63


def spelled(tag):
    """A tag as a filter has it."""
    return "=".join('"' + text.decode().replace("\\", "\\\\").replace('"', '\\"') + '"' for text in tag)


class Samples:
    """Queries over a set, drawn in turn from one seed."""

    def __init__(self, world, seed=9):
        self.random, self.world = random.Random(seed), world
        names = sorted(world.objects)
        self.nodes, self.ways, self.relations = ([it for it in names if it[0] == kind] for kind in (1, 2, 3))
        self.listed = [name for name in self.nodes if name in world.parents]
        self.places = sorted(world.objects[name].place for name in self.nodes)
        self.longitudes = [lon for lon, _ in self.places]

    def ids(self, names, most):
        return [id_of(self.random.choice(names)) for _ in range(most)]

    def within(self, lon, lat, reach):
        """How many nodes lie no farther from a place than this, on either axis."""
        rows = self.places[bisect_left(self.longitudes, lon - reach) : bisect_right(self.longitudes, lon + reach)]
        return sum(1 for _, it in rows if abs(it - lat) <= reach)

    def box(self, about):
        """The least square around some node that has so many nodes."""
        lon, lat = self.world.objects[self.random.choice(self.nodes)].place
        least, most = 1, WIDEST
        while least < most:
            middle = (least + most) // 2
            if self.within(lon, lat, middle) >= about:
                most = middle
            else:
                least = middle + 1
        south, north = max(lat - most, -WIDEST // 2), min(lat + most, WIDEST // 2)
        west, east = max(lon - most, -WIDEST), min(lon + most, WIDEST)
        return "(" + ",".join(map(degrees, (south, west, north, east))) + ")"

    def tags_of(self, about, many, kinds=(1, 2, 3)):
        """The tags that about so many objects have, within a fifth; if there are none, the one that comes next."""
        objects = {tag: len(of_kinds(names, kinds)) for tag, names in self.world.tagged.items()}
        near = sorted(objects, key=lambda tag: (abs(objects[tag] - about), tag))[:many]
        return [tag for tag in near if abs(objects[tag] - about) <= about / 5] or near[:1]

    def tags(self, about, many=1):
        return list(map(spelled, self.tags_of(about, many)))

    def pairs(self, about, many):
        """Such tags, each with the tag that most of its objects have besides."""
        return [(spelled(tag), spelled(self.beside(tag))) for tag in self.tags_of(about, many)]

    def beside(self, tag):
        others = Counter(other for name in self.world.tagged[tag] for other in self.world.objects[name].tags.items())
        del others[tag]
        return max(others, key=lambda other: (others[other], other))


def sorts_of_queries(some):
    """The sorts of queries whose proofs are compared, each with its queries."""
    thousand = some.tags(1_000, 3)
    return [
        ("a node by its id", [f"node({it});out;" for it in some.ids(some.nodes, 200)]),
        ("a way by its id", [f"way({it});out;" for it in some.ids(some.ways, 100)]),
        ("a box of 10 nodes", [f"node{some.box(10)};out;" for _ in range(20)]),
        ("a box of 100", [f"node{some.box(100)};out;" for _ in range(20)]),
        ("a box of 1,000", [f"node{some.box(1_000)};out;" for _ in range(5)]),
        ("a tag, about 10 objects", [f"nwr[{it}];out;" for it in some.tags(10, 10)]),
        ("a tag, about 100", [f"nwr[{it}];out;" for it in some.tags(100, 5)]),
        ("a tag, about 1,000", [f"nwr[{it}];out;" for it in thousand]),
        ("a tag, about 10,000", [f"nwr[{it}];out;" for it in some.tags(10_000)]),
        ("a tag, about 1,000, `out ids`", [f"nwr[{it}];out ids;" for it in thousand]),
        ("a tag, about 1,000, without a key", [f"nwr[{it}][!surface];out;" for it in thousand]),
        ("a way with its nodes", [f"way({it});(._;>;);out;" for it in some.ids(some.ways, 50)]),
        ("the ways of a box of 100, with their nodes", [f"node{some.box(100)};way(bn);(._;>;);out;" for _ in range(5)]),
        ("a relation with all below", [f"rel({it});(._;>>;);out;" for it in some.ids(some.relations, 20)]),
        ("all above a node", [f"node({it});<<;out;" for it in some.ids(some.listed, 50)]),
        ("all above a node, `out ids`", [f"node({it});<<;out ids;" for it in some.ids(some.listed, 50)]),
    ]


def sorts_by_reference(some):
    """Sorts of queries in which all filters left over look at references alone; and the same objects by differences."""
    pairs = some.pairs(1_000, 3)
    two = [f"nwr[{one}]->.a;nwr[{other}]->.b;" for one, other in pairs]
    tagged = [f"node[{spelled(it)}]->.a;node{some.box(1_000)}->.b;" for it in some.tags_of(1_000, 3, (1,))]
    ways = [f"node{some.box(1_000)}->.a;way[{one}]->.b;" for one, _ in pairs]
    return [
        ("objects with two tags, `nwr.a.b`", [f"{it}nwr.a.b;out;" for it in two]),
        ("... `out ids`", [f"{it}nwr.a.b;out ids;" for it in two]),
        ("... by `(.a;-(.a;-.b;););`, `out ids`", [f"{it}(.a;-(.a;-.b;););out ids;" for it in two]),
        ("nodes with a tag in a box, `node.a.b`", [f"{it}node.a.b;out;" for it in tagged]),
        ("... `out ids`", [f"{it}node.a.b;out ids;" for it in tagged]),
        ("nodes of a box in ways with a tag, `node.a(w.b)`", [f"{it}node.a(w.b);out;" for it in ways]),
        ("... `out ids`", [f"{it}node.a(w.b);out ids;" for it in ways]),
    ]


class Size(NamedTuple):
    """A proof's bytes, its nodes, and its bytes after zlib."""

    bytes: float
    nodes: float
    packed: float


def size_of(needed):
    proof = proof_of(needed)
    return Size(len(proof), len(needed), len(zlib.compress(proof, LEVEL)))


def row_of(world, queries, sizes):
    """The means over queries: of results, of bytes of the answers, and of each size that `sizes` gives by what is asked."""
    rows = []
    for query in queries:
        answer, asks = asked_by(world, query)
        rows.append([answer.count("\n"), len(answer.encode()), *sizes(asks)])
    results, lengths, *columns = zip(*rows)
    return mean(results), mean(lengths), [Size(*map(mean, zip(*column))) for column in columns]


def tell(world, title, sorts, names, sizes):
    """Prints a table of queries, with bytes, bytes after zlib and nodes in each cell."""
    print(f"\n{title}: bytes of the proof, after zlib at level {LEVEL}, nodes\n")
    print("| Query | Results | Answer | " + " | ".join(names) + " |\n" + "|---" * (3 + len(names)) + "|")
    for name, queries in sorts:
        results, length, columns = row_of(world, queries, sizes)
        cells = (f"{it.bytes:,.0f}; {it.packed:,.0f}; {it.nodes:,.0f}" for it in columns)
        print(f"| {name} | {results:,.0f} | {length:,.0f} | " + " | ".join(cells) + " |", flush=True)


def tell_built(built, lines):
    """Prints how many nodes and bytes the forms have."""
    print("\n| Form | Nodes of the trees, bytes | Levels of trees 1 to 4 | Lines as nodes, bytes |\n|---|---|---|---|")
    size = sum(map(len, map(str.encode, lines.values())))
    for name, form in FORMS.items():
        levels = [tree.levels for tree in built.four(form).values()]
        nodes = [node for tree in levels for level in tree for node in level.nodes]
        own = f"{len(lines):,}, {size:,}" if form.edition == 3 else "none"
        heights = ", ".join(str(len(tree)) for tree in levels)
        print(f"| {name} | {len(nodes):,}, {sum(map(len, nodes)):,} | {heights} | {own} |", flush=True)


def read_lines(file):
    """The canonical lines of a file of objects."""
    return [canonical(line) for line in Path(file).read_text(encoding="utf-8").splitlines()]


def main():
    world = World(read_lines(sys.argv[1]))
    lines = {name: world.objects[name].line for name in sorted(world.objects)}
    built = BuiltTrees.over(lines.values())
    sets = {name: Publication(lines, built.four(form), form) for name, form in FORMS.items()}
    print(f"{Path(sys.argv[1]).name}: {len(lines):,} objects")
    tell_built(built, lines)
    some = Samples(world)
    tell(world, "Proofs", sorts_of_queries(some), sets, lambda asks: [size_of(it.needed(asks)) for it in sets.values()])
    names = ["Edition 2", "Edition 3", "Edition 3 without these candidates' lines"]
    two, three = (sets[name] for name in names[:2])
    tell(
        world,
        "Filters left over that look at references alone",
        sorts_by_reference(some),
        names,
        lambda asks: [size_of(two.needed(asks)), size_of(three.needed(asks)), size_of(three.needed(asks, spares=True))],
    )


if __name__ == "__main__":
    main()
