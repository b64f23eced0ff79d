#!/usr/bin/env python3
"""What bench/packs.sh measures: packs.py RUNS EXTRACT.opl."""

import os
import shlex
import sqlite3
import subprocess
import sys
import time
from pathlib import Path

from sqlite_answers import QUESTIONS, load

HERE = Path(__file__).resolve().parent
PROGRAM = HERE.parent / "crates/osm_mirror/out/osm_mirror"

# The question of SQLite with this name, and the query that asks the same.
QUERIES = {
    "a node by id": "node({middle});out meta;",
    "a box": "node(52.0,13.0,52.02,13.02);out meta;",
    "[k=v], 68": "nwr[highway=yes1];out meta;",
    "[k=v], 1,000": "nwr[mark=seldom];out meta;",
    "[k=v], 10,000": "nwr[name=Weg];out meta;",
}


def database_of(extract):
    """The file of the extract's database, made once."""
    path = extract.with_suffix(".sqlite")
    if not path.exists():
        part = path.with_suffix(".part")
        part.unlink(missing_ok=True)
        database = sqlite3.connect(part)
        with extract.open(encoding="utf-8") as lines:
            load(database, (line.rstrip("\n") for line in lines))
        database.commit()
        database.execute("ANALYZE")
        database.commit()
        database.close()
        part.rename(path)
    return path


def measure(objects, runs, given, *programs):
    """Runs measure.py on these programs, each a name and its words."""
    words = [it for name, command in programs for it in (name, shlex.join(map(str, command)))]
    subprocess.run([sys.executable, HERE / "measure.py", str(objects), str(runs), given, *words], check=True)


def scratch_of(words):
    """The most bytes that the temporary files of the words have together."""
    most = 0
    with subprocess.Popen(words, stdout=subprocess.DEVNULL) as running:
        while running.poll() is None:
            held = 0
            for entry in Path(f"/proc/{running.pid}/fd").glob("*"):
                try:
                    if "osm_mirror-scratch" in os.readlink(entry):
                        held += os.stat(entry).st_size
                except FileNotFoundError:
                    pass
            most = max(most, held)
            time.sleep(0.02)
    return most


def main():
    runs, extract = int(sys.argv[1]), Path(sys.argv[2])
    pack, database = extract.with_suffix(".pack"), database_of(extract)
    with extract.open("rb") as lines:
        objects = sum(1 for _ in lines)
    # (the bench's own file, which `pack` replaces in each run; it is built in the memory that `pack` takes by itself, and in
    # a tenth of what the text has)
    publish, write = [PROGRAM, "publish", extract], [PROGRAM, "pack", extract, pack]
    root = subprocess.run(write, check=True, capture_output=True, text=True).stdout.strip()
    tenth = [*write, "--memory", os.path.getsize(extract) // 10]
    measure(objects, runs, "/dev/null", ("pack", write), ("pack in a tenth", tenth), ("publish", publish))
    for name, words in [("pack", write), ("pack in a tenth", tenth)]:
        scratch = scratch_of(list(map(str, words)))
        print(f"{name}: temporary files of {scratch / 1e6:.1f} MB, {scratch / os.path.getsize(extract):.2f} times the OPL")
    sizes = {"OPL": extract, "pack": pack, "SQLite": database}
    print("; ".join(f"{name} {os.path.getsize(path) / 1e6:.1f} MB" for name, path in sizes.items()))
    for name, question in QUESTIONS:
        if name not in QUERIES:
            continue
        text = QUERIES[name].format(middle=1500000 % objects)
        question = question.replace("1500000", str(1500000 % objects))
        query = [PROGRAM, "query", root, pack, text]
        answer = subprocess.run(query, check=True, capture_output=True).stdout
        other = subprocess.run(["sqlite3", database, question], check=True, capture_output=True).stdout
        lines = answer.count(b"\n")
        # (the extract's own lines have some tags in another order)
        is_same = [it.split()[0] for it in answer.splitlines()] == [it.split()[0] for it in other.splitlines()]
        print(f"{name}: {lines} lines; the same objects in SQLite: {is_same}")
        measure(max(1, lines), runs, "/dev/null", ("query", query), ("SQLite", ["sqlite3", database, question]))
    text = QUERIES["a node by id"].format(middle=1500000 % objects)
    print("a node by id, and the whole set read first:")
    measure(objects, 1, extract, ("query", [PROGRAM, "query", root, pack, text]), ("ask", [PROGRAM, "ask", text]))


if __name__ == "__main__":
    main()
