"""Random sets, changes and changed sets, as bench/random_changes.program reads them: `random_changes.py SEED CASES`.

A set has up to 150 objects with ids from 0 to 49, or up to 3,000 in one case of fifty. Each is changed with some
probability: deleted where it is there, or put. The changes are in no order.
"""

import random
import sys

KINDS = "nwr"


def line(random, kind, number):
    """An object as a line of OPL."""
    tags = ",".join(f"{key}={random.randrange(4)}" for key in "abm" if random.random() < 0.4)
    front = f"{kind}{number} v{random.randrange(3)} T{tags}"
    if kind == "n":
        return f"{front} x{random.randrange(-179, 180)}.{random.randrange(10**7)} y{random.randrange(-90, 90)}"
    if kind == "w":
        return front + " N" + ",".join(f"n{random.randrange(60)}" for _ in range(random.randrange(6)))
    members = (f"{random.choice(KINDS)}{random.randrange(60)}@r{random.randrange(3)}" for _ in range(random.randrange(5)))
    return front + " M" + ",".join(members)


def text(objects):
    """Lines, each with its end."""
    return "".join(f"{line}\n" for line in objects)


def case(random):
    """A set, changes, and the changed set, each as OPL."""
    ids = 1000 if random.random() < 0.02 else 50
    share, changing = random.random(), random.random() ** 3
    names = [(kind, number) for kind in KINDS for number in range(ids)]
    there = {name: line(random, *name) for name in names if random.random() < share}
    changed, changes = dict(there), []
    for name in names:
        if random.random() >= changing:
            continue
        if name in there and random.random() < 0.5:
            changes.append(f"{name[0]}{name[1]} dD")
            del changed[name]
        else:
            changed[name] = line(random, *name)
            changes.append(changed[name])
    random.shuffle(changes)
    return text(there.values()), text(changes), text(changed.values())


if __name__ == "__main__":
    numbers = random.Random(int(sys.argv[1]))
    for _ in range(int(sys.argv[2])):
        for part in case(numbers):
            sys.stdout.write(f"{part}#\n")
