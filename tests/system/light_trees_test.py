"""The model of publications (light_trees.py, asks.py) by values from outside of it: in edition 2 by roots, proofs and answers of
an independent program (tests/vectors), in edition 3 by rows that were worked by hand. And the program beside the model: over the
sets of the vectors, the answers and the proofs of seeded queries are the same, byte for byte."""

import hashlib
import random
import tempfile
from concurrent.futures import ThreadPoolExecutor
from pathlib import Path

from asks import World, asked_by
from elements import canonical
from light_trees import COARSE, EDITION_2, FINE, LIGHT, Publication, entries_of, fine_cell, four_trees, proof_of
from lines_rows_test import rows, set_file
from query_reader import statements_of
from runs import PROGRAM, Tally, run

# One node, `n1 x0 y0`, in edition 3: its root is put together by hand, of the leaves `01000001` `0009` `018000000000000001`
# `00000020` and the digest of the line, `02000000`, `03000001` `000e` `23286b49d2008000000000000001` `00000024` `00000000`
# and that digest, and `04000000`. The proofs' bytes are 9, 145 for the manifest, 55, 64 or 8 for a leaf, 30 for the line.
ONE = "n1 v0 dV c0 t i0 u T x0 y0"
ONE_ROOT = "11e24a1ae5a1911e7be798ea6e773883ab37747220a6024b86d24adf8d528389"
ONE_PROOFS = [
    ("node(1);out;", 239),
    ("node(1);out ids;", 209),
    ("node(2);out;", 209),
    ("nwr[a];out;", 162),
    ("node(-1,-1,1,1);out;", 248),
    ("node(-1,-1,1,1);out ids;", 218),
    ("node;out;", 239),
]

# Over the four objects, whose trees have a leaf each, by hand: the nodes of a proof in edition 3, and without the lines of
# candidates that only filters by reference are applied to. The manifest is in all of them.
FOUR_NODES = [
    # The leaf of tree 1, and the lines of n1 and n2, or of those that are printed.
    ("node(id:1,2)->.b;node(1)->.a;node.b.a;out ids;", 4, 2),
    ("node(id:1,2)->.b;node(1)->.a;node.b.a;out;", 4, 3),
    # And the line of w10.
    ("way(10)->.w;node(id:1,2)->.a;node.a(w.w);out ids;", 5, 3),
    ("node(id:1,2)[highway];out ids;", 4, 4),
    # The leaf of tree 2, and lines: of n1 and w10, of n1, of none.
    ("nwr[highway];out;", 4, 4),
    ("node[highway][!name];out ids;", 3, 3),
    ("node[highway](52.4,13.3,52.6,13.5);out ids;", 3, 3),
    ("nwr[highway];out ids;", 2, 2),
    # The leaves of trees 2 and 1, and the line of w10 or r100.
    ("way[highway]->.a;node(w.a);out ids;", 4, 4),
    ("nwr[type]->.a;way(r.a);out ids;", 4, 4),
    # The leaf of tree 1, and the lines of r100 and w10; with that of tree 2.
    ("rel(100);>;out ids;", 4, 4),
    ("nwr[type];>>;out ids;", 5, 5),
    # The leaves of trees 1 and 4, or 2 and 4.
    ("node(2);<;out ids;", 3, 3),
    ("nwr[type];<<;out ids;", 3, 3),
    # Nothing is asked of an empty set.
    ("way(r);out ids;", 1, 1),
]

# Entries of tree 3: longitude, latitude, id, key. They are rows of crates/osm_index_tests.
CELLS = [
    (-1_800_000_000, -900_000_000, -(2**63), "0000000000000000000000000000"),
    (1_800_000_000, 900_000_000, 2**63 - 1, "4650d693a400ffffffffffffffff"),
    (-1, -1, 1, "23276b49d1ff8000000000000001"),
]
# The ranges of a box: how many, and the ends of the first ones; those of fine cells are rows of crates/osm_index_tests, the
# others of docs/FORMATS.md.
BOXES = [
    (FINE, "-0.005,-0.00001,0.005,0.00001", 2, [("23276b49d19c", "23276b49d264"), ("23286b49d19c", "23286b49d264")]),
    (FINE, "0,179.9999999,0,-179.9999999", 2, [("2328d693a3ff", "2328d693a400"), ("232800000000", "232800000001")]),
    (FINE, "0.00000001,0,0.00000002,1", 0, []),
    (FINE, "0,0.00000001,1,0.00000002", 0, []),
    (FINE, "-90,-180,90,180", 18_001, []),
    (FINE, "-90,180,90,-180", 36_002, []),
    (COARSE, "-1,179,1,-179", 42, [("037a0e06", "037a0e10"), ("037a0000", "037a000a")]),
    (COARSE, "-90,-180,90,180", 1_801, []),
    (COARSE, "0,13.45,0,13.41", 2, [("0384078e", "03840e10"), ("03840000", "0384078e")]),
]


SEED = 50
# How many seeded queries are asked over each set.
QUERIES = 60


class Model:
    """A set in one form: what queries over it answer, and their proofs."""

    def __init__(self, lines, form, sequence=0):
        self.world = World(lines)
        named = {name: element.line for name, element in self.world.objects.items()}
        self.publication = Publication(named, four_trees(entries_of(lines, form.edition), form), form, sequence)

    def needed(self, query, spares=False):
        return self.publication.needed(asked_by(self.world, query)[1], spares)

    def answer(self, query):
        return asked_by(self.world, query)[0].encode()


def lines_of(name):
    """The canonical lines of a set of the vectors."""
    return [canonical(line) for line in set_file(name).read_text(encoding="utf-8").splitlines()]


def check_vectors(tally):
    """Edition 2's roots and proofs, byte for byte, and answers."""
    for name, edition, sequence, root, *_ in rows("roots.tsv"):
        if edition == b"2":
            found = Model(lines_of(name), EDITION_2, int(sequence)).publication.root()
            tally.check(f"root of {name}", found == root.decode(), found)
    for name, query, edition, sequence, nodes, size, sha, _ in rows("proofs.tsv"):
        if edition == b"2":
            needed = Model(lines_of(name), EDITION_2, int(sequence)).needed(query.decode())
            proof = proof_of(needed)
            found = (len(needed), len(proof), hashlib.sha256(proof).hexdigest())
            tally.check(f"proof of {query} over {name}", found == (int(nodes), int(size), sha.decode()), found)
    for name, query, answer in rows("meanings.tsv"):
        found = Model(lines_of(name), EDITION_2).answer(query.decode())
        tally.check(f"answer to {query} over {name}", found == answer, found)


def check_light(tally):
    """Edition 3 over one node and over the four objects, by hand."""
    one = Model([ONE], LIGHT)
    tally.check("root of one node", one.publication.root() == ONE_ROOT, one.publication.root())
    for query, size in ONE_PROOFS:
        found = len(proof_of(one.needed(query)))
        tally.check(f"{query} over one node", found == size, found)
    four = Model(lines_of(b"F"), LIGHT)
    for query, nodes, spared in FOUR_NODES:
        found = (len(four.needed(query)), len(four.needed(query, spares=True)))
        tally.check(f"{query} over the four objects", found == (nodes, spared), found)


def check_cells(tally):
    """Entries of fine cells, and the ranges of boxes in both editions, by hand."""
    for lon, lat, name, key in CELLS:
        value = lon.to_bytes(4, "big", signed=True) + lat.to_bytes(4, "big", signed=True)
        found = fine_cell((name + 2**63).to_bytes(8, "big"), value, 32 * b"\7")
        tally.check(f"cell of {lon}, {lat}", found == (bytes.fromhex(key), value[4:] + 32 * b"\7"), found)
    for grid, box, number, ends in BOXES:
        ranges = grid.ranges(statements_of(f"node({box});")[0].filters[0].given)
        found = [(it.lo.hex(), it.hi.hex()) for it in ranges[: len(ends)]]
        tally.check(f"ranges of {box}", (len(ranges), found) == (number, ends) and all(it.under for it in ranges), found)


class Queries:
    """Queries that look like chance, of what a set has."""

    def __init__(self, chance, world):
        self.chance, self.elements = chance, list(world.objects.values())
        self.tags = sorted({tag for element in self.elements for tag in element.tags.items()})
        self.places = sorted(element.place for element in self.elements if element.place)
        self.names = [element.line.split(" ")[0] for element in self.elements]

    def quoted(self, text):
        """A text of the set as one of a query."""
        return '"' + text.decode().replace("\\", "\\\\").replace('"', '\\"').replace("\n", "\\n").replace("\t", "\\t") + '"'

    def box(self):
        lon, lat = self.chance.choice(self.places)
        half = self.chance.choice([10, 100_000, 20_000_000])
        south, north = max(lat - half, -900_000_000), min(lat + half, 900_000_000)
        west, east = max(lon - half, -1_800_000_000), min(lon + half, 1_800_000_000)
        return "(" + ",".join(f"{it / 10**7:.7f}" for it in (south, west, north, east)) + ")"

    def filter(self, kind):
        """A filter that a query statement of this kind may have."""
        sorts = ["ids", "set"] + ["tag", "key", "no tag", "no key"] * bool(self.tags)
        sorts += ["box"] * (kind == "node" and bool(self.places)) + {"node": ["w", "r"], "way": ["r", "bn"], "rel": ["bw", "br"]}[kind]
        sort = self.chance.choice(sorts)
        if sort == "ids":
            return "(id:" + ",".join(name[1:] for name in self.chance.choices(self.names, k=3)) + ")"
        if sort == "box":
            return self.box()
        if sort in ("set", "w", "r", "bn", "bw", "br"):
            return ".a" if sort == "set" else f"({sort}.a)"
        key, value = map(self.quoted, self.chance.choice(self.tags))
        return {"tag": f"[{key}={value}]", "key": f"[{key}]", "no tag": f"[{key}!={value}]", "no key": f"[!{key}]"}[sort]

    def select(self):
        kind = self.chance.choice(["node", "way", "rel"])
        return kind + "".join(self.filter(kind) for _ in range(self.chance.randrange(3)))

    def statement(self):
        first, second = self.select(), self.select()
        return self.chance.choice([
            f"{first}->.a;", f"({first};{second};)->.a;", f"({first};-{second};)->.a;",
            f".a {self.chance.choice(['>', '>>', '<', '<<'])}->.a;", f"{first};(._;>;)->.a;",
        ])

    def query(self):
        """Some statements, and an out of what they gave."""
        begun = "".join(self.statement() for _ in range(self.chance.randrange(1, 5)))
        return begun + ".a out" + self.chance.choice(["", " meta", " ids", " tags", " skel", " 3"]) + ";"


def proved(name, query):
    """What the program answers over a set of the vectors, its proof, and what it says."""
    with tempfile.TemporaryDirectory() as folder:
        room = Path(folder)
        (room / "query").write_bytes(query.encode())
        outcome = run([PROGRAM, "prove", set_file(name), room / "query", room / "answer", room / "proof"])
        files = [room / it for it in ("answer", "proof")]
        return [it.read_bytes() if it.exists() else None for it in files], outcome


def check_program(tally):
    """The program's answers and proofs are those of the model."""
    for name in sorted({row[0] for row in rows("roots.tsv")}):
        model = Model(lines_of(name), EDITION_2)
        if not model.world.objects:
            continue
        queries = Queries(random.Random(f"{SEED} {name}"), model.world)
        asked = [queries.query() for _ in range(QUERIES)]
        with ThreadPoolExecutor() as workers:
            for query, (found, outcome) in zip(asked, workers.map(lambda it, of=name: proved(of, it), asked)):
                wanted = [model.answer(query), proof_of(model.needed(query))]
                tally.check(f"{query} over {name}", found == wanted, outcome)


def main():
    tally = Tally()
    check_vectors(tally)
    check_light(tally)
    check_cells(tally)
    check_program(tally)
    tally.end()


if __name__ == "__main__":
    main()
