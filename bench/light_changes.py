"""What changes cost in edition 2 and in forms of edition 3, by a model (see light_sizes.sh): light_changes.py FILE. Prints the
nodes that come with a change and their bytes, without the manifest."""

import random
import sys
from pathlib import Path

from light_sizes import FORMS, BuiltTrees, read_lines

# pylint: disable=wrong-import-order
from elements import degrees
from light_trees import digest, entries_of
from trees import units

MANY = 100
# How far a node moves, in 1e-7 degree.
EAST, SOUTH = 137, 211


def changed(line, change):
    """The line of the next version of an object, in another changeset, with the fields that the change gives."""
    name, *rest = line.split(" ")
    field = {it[0]: it[1:] for it in rest}
    field |= {"v": str(int(field["v"]) + 1), "c": str(int(field["c"]) + 1)} | change(field)
    return " ".join([name, *(letter + value for letter, value in field.items())])


def moved(field):
    return {"x": degrees(units(field["x"]) + EAST), "y": degrees(units(field["y"]) - SOUTH)}


def tagged_anew(field):
    """The first tag has another value."""
    first, *rest = field["T"].split(",")
    return {"T": ",".join([f"{first}x", *rest])}


def changes_of(lines):
    """The changes that are compared: their names, the old lines, and what is done to each."""
    some = random.Random(5)
    nodes = [line for line in lines if line[0] == "n"]
    third = len(nodes) // 3
    changes = [
        ("one node moved", nodes[third : third + 1], moved),
        (f"{MANY} nodes moved, ids in a row", nodes[third : third + MANY], moved),
        (f"{MANY} nodes moved, all over", some.sample(nodes, MANY), moved),
    ]
    for name in ("ways", "relations"):
        tagged = [line for line in lines if line[0] == name[0] and " T " not in line]
        few = some.sample(tagged, min(MANY, len(tagged)))
        changes.append((f"{len(few)} {name}, a tag changed", few, tagged_anew))
    return changes


def entries_after(entries, edition, old, new):
    """The entries of the changed set."""
    gone, come = entries_of(old, edition), entries_of(new, edition)
    after = {}
    for tree, before in entries.items():
        removed = dict(gone[tree])
        kept = {key: value for key, value in before if key not in removed}
        after[tree] = sorted((kept | dict(come[tree])).items()) if gone[tree] != come[tree] else before
    return after


def nodes_that_come(before, after, form):
    """For each tree the nodes that only the changed set's has."""
    come = []
    for tree, old_tree in before.four(form).items():
        if after.entries[form.edition][tree] is before.entries[form.edition][tree]:
            come.append([])
            continue
        old, new = old_tree.held(), after.four(form)[tree].held()
        come.append([node for name, node in new.items() if name not in old])
    return come


def cost(before, after, form, new):
    """The nodes that come, as text: how many, their bytes, and how many in each tree."""
    come = nodes_that_come(before, after, form)
    lines = [line.encode() for line in new] if form.edition == 3 else []
    nodes = [node for found in come for node in found] + lines
    return f"{len(nodes):,}, {sum(map(len, nodes)):,} ({'+'.join(str(len(found)) for found in come)})"


def main():
    lines = read_lines(sys.argv[1])
    before = BuiltTrees.over(lines)
    print(f"\n{Path(sys.argv[1]).name}, changes: nodes that come, their bytes (nodes of trees 1 to 4; lines are in the sum)\n")
    print("| Change | " + " | ".join(FORMS) + " |\n" + "|---" * (1 + len(FORMS)) + "|")
    for name, old, change in changes_of(lines):
        new = [changed(line, change) for line in old]
        after = BuiltTrees({edition: entries_after(entries, edition, old, new) for edition, entries in before.entries.items()})
        print(f"| {name} | " + " | ".join(cost(before, after, form, new) for form in FORMS.values()) + " |", flush=True)


if __name__ == "__main__":
    main()
