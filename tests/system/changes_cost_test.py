"""Applying a change costs what the change does and not what the set does. The measure is the number of allocations: a
body of `apply` that reads the objects of the set, or builds its trees anew, makes some for each leaf or object.

The limit was found so: deleting one of 4,000 nodes took from 95 to 260 allocations, after the set had been published
(how many depends on how often a growing list has to move); a body that reads and builds a whole tree took 600 to 1,000
more. Twice the greatest figure is 520, which lets no such body through. Through the program the same change is made of
sets of several sizes, and of the greatest it may cost no more than twice what it costs of the least.
"""

import tempfile
from pathlib import Path

from changes_test import root_at
from runs import TOP, Tally, built_library, run
from serve_test import server

BINARY = TOP / "crates" / "osm_index_tests" / "out" / "osm_index_tests_tests"
PUBLISHED = "tests::snapshots::changes::thousands::thousands_are_published"
DELETED = "tests::snapshots::changes::thousands::one_of_thousands_is_deleted"

LIMIT = 2 * 260

SIZES = (1_000, 4_000, 16_000)


def allocations(words):
    """How many allocations a run makes."""
    with tempfile.TemporaryDirectory() as room:
        told = Path(room) / "count"
        run(words, b"", {"COUNT_FILE": told})
        return int(told.read_text(encoding="ascii"))


def served(room, size, change):
    """How many allocations a server makes that has a set of this size and one client, who comes after this change; and the
    root that the client is told."""
    told, changes = room / "count", room / "changes"
    changes.mkdir(exist_ok=True)
    (room / "set.opl").write_bytes(b"".join(b"n%d Ta=b x0 y0\n" % number for number in range(1, size + 1)))
    (changes / "1.opl").write_bytes(change)
    with server(room / "set.opl", "--connections", 1, "--changes", changes, refusing={"COUNT_FILE": told}) as running:
        root = root_at(running)
        running.ended()
    return int(told.read_text(encoding="ascii")), root


def check_program(tally):
    """One node is deleted, against a change that is refused as soon as it is looked up: the set stays as it was."""
    costs = []
    with tempfile.TemporaryDirectory() as folder:
        room = Path(folder)
        for size in SIZES:
            refused, old = served(room, size, b"n%d dD\n" % (size + 1))
            applied, new = served(room, size, b"n%d dD\n" % (size // 2))
            tally.check(f"one of {size} is deleted", len(old) == len(new) == 64 and old != new, old, new)
            costs.append(applied - refused)
    tally.check("a change costs the same of any set", 0 < costs[0] and max(costs) <= 2 * min(costs), costs)
    tally.check("a change costs little", max(costs) <= LIMIT, costs)


def main():
    tally = Tally()
    built_library()
    listed = run([BINARY, "--list"]).stdout.decode().splitlines()
    for name in (PUBLISHED, DELETED):
        outcome = run([BINARY, name])
        tally.check(name, f"{name}: test" in listed and outcome.status == 0, outcome)
    published, deleted = allocations([BINARY, PUBLISHED]), allocations([BINARY, DELETED])
    tally.check(f"a change takes {LIMIT} allocations at most", 0 < deleted - published <= LIMIT, published, deleted)
    check_program(tally)
    tally.end()


if __name__ == "__main__":
    main()
