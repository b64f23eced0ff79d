"""Packs: what packs.py writes by docs/FORMATS.md reads back, is the pack that is worked there, and is what the crates' tests
have."""

import re

from packs import example, four_objects, further_example, nodes_of, pack_of
from runs import TOP, Tally
from trees import digest

PLACES = {
    "example": (example, ["crates/pack_tests/src/tests/small_pack.rt"]),
    "four objects": (
        four_objects,
        [
            "crates/outside_answer_tests/src/packs.rt", "crates/osm_packs_tests/src/tests/four_objects.rt",
            "crates/osm_query_web/src/tests/four_objects.rt",
        ],
    ),
}


def literals(path):
    """The byte strings of a file that are written in escapes alone."""
    found = re.findall(r'b"((?:\\x[0-9a-f]{2})+)"', (TOP / path).read_text(encoding="utf-8"))
    return [bytes.fromhex(it.replace("\\x", "")) for it in found]


def main():
    tally = Tally()
    for name, (nodes, paths) in PLACES.items():
        made = nodes()
        pack = pack_of(made)
        root, found = nodes_of(pack)
        tally.check(f"{name} reads back", root == digest(made[0]) and sorted(found) == sorted(made), root.hex())
        for path in paths:
            tally.check(f"{name} stands in {path}", pack in literals(path) and root in literals(path))
    text = (TOP / "docs/FORMATS.md").read_text(encoding="utf-8")
    chapter = text[text.index("\n## Packs\n") :]
    worked = "".join(re.findall(r"^    ([0-9a-f]+)$", chapter, re.MULTILINE))
    tally.check("the worked pack and the file beside it", worked == (pack_of(example()) + further_example()).hex(), worked)
    found = literals("crates/pack_tests/src/tests/packs/further.rt")
    tally.check("the file beside it stands in the tests", further_example() in found and further_example()[8:40] in found)
    tally.end()


if __name__ == "__main__":
    main()
