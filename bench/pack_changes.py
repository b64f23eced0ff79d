#!/usr/bin/env python3
"""What bench/pack_changes.sh measures: pack_changes.py RUNS EXTRACT.opl CHANGES."""

import shlex
import subprocess
import sys
from pathlib import Path

HERE = Path(__file__).resolve().parent
PROGRAM = HERE.parent / "crates/osm_mirror/out/osm_mirror"

QUERIES = {
    "a node by id": "node({middle});out meta;",
    "a box": "node(52.0,13.0,52.02,13.02);out meta;",
    "[k=v], 1,000": "nwr[mark=seldom];out meta;",
}


def moved(line):
    """The node of a line a little further north, in its next version."""
    fields = line.split(" ")
    version = next(it for it in fields if it[0] == "v")
    fields[fields.index(version)] = f"v{int(version[1:]) + 1}"
    place = next(it for it in fields if it[0] == "y")
    fields[fields.index(place)] = f"y{float(place[1:]) + 0.0001:.7f}"
    return " ".join(fields)


def written(extract, count):
    """The change file with this many nodes, spread over all of the extract's, and the changed set. Returns both, and how many objects
    there are."""
    changes, changed = extract.with_suffix(".changes"), extract.with_suffix(".changed")
    with extract.open(encoding="utf-8") as lines:
        nodes = sum(line.startswith("n") for line in lines)
    step, at, objects = nodes // count, 0, 0
    with extract.open(encoding="utf-8") as lines, changes.open("w", encoding="utf-8") as some, changed.open("w", encoding="utf-8") as all_of:
        for line in lines:
            objects += 1
            if line.startswith("n"):
                if at % step == 0 and at // step < count:
                    line = moved(line.rstrip("\n")) + "\n"
                    some.write(line)
                at += 1
            all_of.write(line)
    return changes, changed, objects


def measure(objects, runs, *programs):
    """Runs measure.py on these programs, each a name and its command."""
    words = [it for name, command in programs for it in (name, command)]
    subprocess.run([sys.executable, HERE / "measure.py", str(objects), str(runs), "/dev/null", *words], check=True)


def told(*words):
    return subprocess.run([PROGRAM, *words], check=True, capture_output=True).stdout


def main():
    runs, extract, count = int(sys.argv[1]), Path(sys.argv[2]), int(sys.argv[3])
    changes, changed, objects = written(extract, count)
    pack, new = extract.with_suffix(".pack"), extract.with_suffix(".new.pack")
    told("pack", extract, pack)
    head, further = Path(f"{pack}.head"), Path(f"{pack}.1")
    words = shlex.join(map(str, [PROGRAM, "pack", "--add", changes, pack]))
    add = f"sh -c {shlex.quote(f'rm -f {shlex.quote(str(head))}; exec {words}')}"
    anew = shlex.join(map(str, [PROGRAM, "pack", changed, new, "--sequence", "1"]))
    measure(objects, runs, ("pack --add", add), ("pack anew", anew))
    head.unlink()
    root = told("pack", "--add", changes, pack)
    assert root == told("pack", changed, new, "--sequence", "1")
    print(f"{count} changes: {further.stat().st_size} bytes of a further file; {new.stat().st_size} bytes of a new pack")
    compacted = extract.with_suffix(".compacted.pack")
    words = shlex.join(map(str, [PROGRAM, "pack", "--compact", head, compacted]))
    measure(objects, runs, ("pack --compact", words), ("pack anew", anew))
    assert compacted.read_bytes() == new.read_bytes()
    root = root.decode().strip()
    for name, text in QUERIES.items():
        query = text.format(middle=objects // 4)
        assert told("query", root, head, query) == told("query", root, new, query)
        print(name)
        measure(objects, runs, *((what, shlex.join([str(PROGRAM), "query", root, str(place), query])) for what, place in (("from the head", head), ("from a new pack", new))))


if __name__ == "__main__":
    main()
