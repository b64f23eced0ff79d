"""Checks the model of light_sizes.py over larger sets, by values from outside of it (see light_sizes.sh): proofs of the program
in edition 2, and what another simulation gave in both editions. tests/system/light_trees_test.py checks it over small sets."""

import subprocess
import sys
from pathlib import Path

from light_changes import changed, cost, entries_after, tagged_anew
from light_sizes import FORMS, BuiltTrees

# pylint: disable=wrong-import-order
from asks import World, asked_by
from elements import canonical
from light_trees import EDITION_2, LIGHT, Form, Publication, entries_of, proof_of
from runs import Tally

HERE = Path(__file__).resolve().parent

# What `osm_mirror prove` gave over extracts of share 0.01 (docs/PERFORMANCE.md, "Proofs" and "Content coding").
PROGRAM = {
    "--marked": [
        ("node(4998);out;", 9_806),
        ("node(51.9000,12.9000,52.1000,13.1000);out;", 425_863),
        ('nwr["name"="Weg"];out;', 376_427),
        ('nwr["mark"="often"];out;', 1_327_950),
    ],
    "": [
        ("node(4998);out;", 10_164),
        ("node(51.9000,12.9000,52.1000,13.1000);out;", 424_049),
        ('nwr["name"="Weg"];out;', 374_797),
    ],
}

# The root of edition 3 over the marked one, sequence 0, from the tops that the simulation of TOWNS builds of these entries.
LIGHT_ROOT = "9274fef152f99be6d73fb54567e45319bb8f524e9dcdcf08d48049923f0f84c7"

# Over the set of make_towns.py, what another simulation gave: the bytes and nodes of proofs in edition 2, in edition 3, and in
# edition 3 with one item in 8 marked in all trees. There the entries of tree 3 state the longitude in the value too.
EIGHTH = Form(3, dict.fromkeys((1, 2, 3, 4), 32))
TOWNS = [
    ('node(857622);out;', (10_919, 5), (7_737, 6), (6_624, 8)),
    ('node(51.2181904,7.3952937,51.2186250,7.3957283);out;', (166_783, 124), (12_222, 18), (9_166, 30)),
    ('node(51.2176345,7.3947378,51.2191809,7.3962842);out;', (568_712, 246), (37_490, 121), (33_330, 142)),
    ('node(51.2155435,7.3926468,51.2212719,7.3983752);out;', (1_155_476, 420), (210_731, 1_078), (211_891, 1_223)),
    ('node(51.2176345,7.3947378,51.2191809,7.3962842);out ids;', (76_412, 96), (27_882, 21), (23_722, 42)),
    ('nwr["addr:housenumber"="143"];out;', (95_010, 32), (8_693, 15), (5_445, 19)),
    ('nwr["name"="O\'Neill & Sonsweg"];out;', (940_918, 167), (37_132, 108), (39_396, 119)),
    ('nwr["maxspeed"="50"];out;', (5_029_575, 682), (249_725, 925), (251_838, 1_001)),
    ('nwr["building"="yes"];out;', (8_704_944, 1_797), (2_766_130, 11_243), (2_831_469, 12_192)),
    ('nwr["maxspeed"="50"];out ids;', (33_258, 41), (61_005, 42), (63_118, 118)),
    ('way(627850);(._;>;);out;', (32_496, 8), (13_880, 21), (9_253, 25)),
    ('node(51.2176345,7.3947378,51.2191809,7.3962842)->.a;way(bn.a);(._;>;);out;',
     (2_374_425, 643), (951_263, 2_156), (656_110, 2_516)),
    ('(node(51.2176345,7.3947378,51.2191809,7.3962842)->.a;way(bn.a);>;);out;',
     (2_445_054, 664), (952_707, 2_171), (657_554, 2_531)),
    ('rel(5193);(._;>>;);out;', (393_150, 84), (200_201, 374), (132_584, 457)),
    ('rel(5193);(._;>;);out;', (188_108, 44), (101_408, 160), (61_939, 199)),
    ('node["maxspeed"="50"](51.2155435,7.3926468,51.2212719,7.3983752);out;', (5_814, 5), (7_866, 5), (2_896, 7)),
    ('node(857622);<<;out ids;', (37_459, 21), (36_895, 22), (27_038, 34)),
]
# What it says of a hundred ways in a row with a changed tag: nodes that come, their bytes, and how many in each tree.
WAYS_CHANGED = {
    "Edition 2": "100, 186,709 (6+94+0+0)",
    "Edition 3": "605, 1,115,078 (7+165+0+333)",
    "1/8 in trees 1 and 4": "991, 931,924 (20+165+0+706)",
}


class Model:
    """A set in some forms."""

    def __init__(self, lines, entries, *forms):
        self.world = World(lines)
        named = {name: element.line for name, element in self.world.objects.items()}
        self.built = BuiltTrees(entries)
        self.forms = [Publication(named, self.built.four(form), form) for form in forms]

    @staticmethod
    def of(lines, *forms):
        return Model(lines, {form.edition: entries_of(lines, form.edition) for form in forms}, *forms)

    def proofs(self, query):
        """The bytes and the nodes of the proof in each form."""
        _, asks = asked_by(self.world, query)
        return [(len(proof_of(it)), len(it)) for it in (form.needed(asks) for form in self.forms)]


def made(script, *words):
    """The canonical lines of an extract."""
    text = subprocess.run([sys.executable, "-B", HERE / script, *words], check=True, capture_output=True).stdout.decode()
    return [canonical(line) for line in text.splitlines()]


def check_program(tally):
    """Edition 2's proofs have as many bytes as those that the program made over two extracts; edition 3's root over one."""
    for option, queries in PROGRAM.items():
        lines = made("make_extract.py", "--share", "0.01", *option.split())
        model = Model.of(lines, EDITION_2)
        for query, size in queries:
            found = model.proofs(query)[0][0]
            tally.check(f"{query} over an extract {option}", found == size, found, size)
        if option:
            found = Model.of(lines, LIGHT).forms[0].root()
            tally.check(f"root over an extract {option}", found == LIGHT_ROOT, found)


def with_longitude(key, value):
    """An entry of tree 3 as the other simulation has it."""
    lon = int.from_bytes(key[2:6], "big") - 1_800_000_000
    return key, lon.to_bytes(4, "big", signed=True) + value


def check_towns(tally):
    """Proofs and a change over the set with towns are those of the other simulation."""
    lines = made("make_towns.py")
    entries = {edition: entries_of(lines, edition) for edition in (2, 3)}
    entries[3][3] = [with_longitude(key, value) for key, value in entries[3][3]]
    model = Model(lines, entries, EDITION_2, LIGHT, EIGHTH)
    for query, *wanted in TOWNS:
        found = model.proofs(query)
        tally.check(f"{query} over towns", found == wanted, found, wanted)
    old = [line for line in lines if line[0] == "w"][500:600]
    new = [changed(line, tagged_anew) for line in old]
    after = BuiltTrees({edition: entries_after(before, edition, old, new) for edition, before in entries.items()})
    for name, wanted in WAYS_CHANGED.items():
        found = cost(model.built, after, FORMS[name], new)
        tally.check(f"100 ways changed, {name}", found == wanted, found, wanted)


def main():
    tally = Tally()
    check_program(tally)
    check_towns(tally)
    tally.end()


if __name__ == "__main__":
    main()
