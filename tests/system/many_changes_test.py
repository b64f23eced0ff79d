"""Change files of thousands of lines, with ample memory: what `serve` makes of them is what `publish` builds of the changed
set from nothing, and what is calculated without the program (trees.py). One set has a tree of objects of five levels, so
that a change there makes new nodes on five levels."""

import random
import tempfile
from hashlib import sha256
from itertools import count as numbers
from itertools import islice
from pathlib import Path

import trees
from changes_test import published, root_at
from runs import Outcome, Tally
from serve_test import server

FRONT = "v0 dV c0 t i0 u T"


def node(name, tags="", lon=0):
    return f"n{name} {FRONT}{tags} x{lon} y0"


def way(name, nodes):
    return f"w{name} {FRONT} N{','.join(f'n{it}' for it in nodes)}"


def relation(name, ways):
    return f"r{name} {FRONT} M{','.join(f'w{it}@' for it in ways)}"


def canonical(lines):
    """The lines in the order of their references."""
    return sorted(lines, key=lambda line: trees.reference(line.split()[0]))


def changed(lines, changes):
    """The set after these lines of changes."""
    held = {line.split()[0]: line for line in lines}
    for change in changes:
        name = change.split()[0]
        if " dD" in change:
            del held[name]
        else:
            held[name] = change
    return canonical(held.values())


def marked_ids(count):
    """Ids of nodes whose keys are marked in the tree of objects, so that its leaves have two entries each."""
    is_marked = lambda name: sha256(b"\x01" + (name + 2**63).to_bytes(8, "big")).digest()[0] < 8
    return list(islice(filter(is_marked, numbers(1)), count))


def mixed(random_numbers, number):
    """A set of nodes, ways and relations, and so many changes of it, which put, move, tag and delete objects."""
    lines = [node(it, f"k=v{it % 7}", it % 180) for it in range(1, 4_001)]
    lines += [way(it, range(it, it + 5)) for it in range(1, 1_501)]
    lines += [relation(it, range(it, it + 3)) for it in range(1, 501)]
    names = random_numbers.sample([line.split()[0] for line in lines], number * 4 // 5)
    changes = []
    for name in names:
        kind, place = name[0], int(name[1:])
        put = {"n": node(place, "k=w", place % 90), "w": way(place, [place, 1, 2]), "r": relation(place, [place])}[kind]
        changes.append(f"{name} dD" if random_numbers.randrange(3) == 0 else put)
    changes += [node(it, "new=1", -1) for it in range(10_000, 10_000 + number - len(changes))]
    random_numbers.shuffle(changes)
    return canonical(lines), changes


def cases():
    """Sets and changes, each with what it is."""
    random_numbers = random.Random(7)
    for number in (150, 151, 1_000, 5_000):
        lines, changes = mixed(random_numbers, number)
        yield f"{number} changes of 6,000 objects", lines, changes
    many = [node(it, f"k=v{it}", it % 180) for it in range(1, 20_001)]
    yield "20,000 objects into nothing", [], many
    yield "all of 20,000 objects away", many, [f"n{it} dD" for it in range(1, 20_001)]
    deep = [node(it) for it in marked_ids(100_000)]
    yield "one object of a tree of five levels", deep, [f"{deep[50_000].split()[0]} dD"]
    yield "three thousand objects of a tree of five levels", deep, [f"{line.split()[0]} dD" for line in deep[::34]]


def check_changes(tally, name, lines, changes):
    after = changed(lines, changes)
    with tempfile.TemporaryDirectory() as folder:
        room = Path(folder)
        (room / "changes").mkdir()
        (room / "before.opl").write_text("".join(f"{line}\n" for line in lines), encoding="utf-8")
        (room / "after.opl").write_text("".join(f"{line}\n" for line in after), encoding="utf-8")
        (room / "changes/1.opl").write_text("".join(f"{line}\n" for line in changes), encoding="utf-8")
        root = trees.root_of(after, 2, 1).encode()
        tally.check(f"{name}: built", published(room / "after.opl", 1) == root)
        with server(room / "before.opl", "--connections", 2, "--changes", room / "changes") as running:
            got = [root_at(running), root_at(running)]
            outcome = running.ended()
        tally.check(f"{name}: changed", (got, outcome) == ([root, root], Outcome(b"", b"", 0)), got, outcome)


def main():
    tally = Tally()
    for name, lines, changes in cases():
        if "five levels" in name:
            levels = trees.tree_of(1, trees.entries_of(lines)[1], 2)
            tally.check(f"{name}: its levels", len(levels) >= 5, len(levels))
        check_changes(tally, name, lines, changes)
    tally.end()


if __name__ == "__main__":
    main()
