#!/usr/bin/env python3
"""What SQLite takes for the questions of bench/evaluate_speed.program: sqlite_answers.py < EXTRACT.opl.

It loads the extract of bench/make_extract.py into a database in memory, with an index for each question (an R-tree for
boxes), and prints for each question how many lines it gives and the median of the microseconds that it takes. A line
is the object's, joined with the others to one text, as an answer is.
"""

import sqlite3
import statistics
import sys
import time

RUNS = 9
KINDS = {"n": 1, "w": 2, "r": 3}
QUESTIONS = [
    ("a node by id", "SELECT line FROM objects WHERE kind = 1 AND id = 1500000"),
    (
        "a box",
        "SELECT line FROM objects WHERE kind = 1 AND id IN (SELECT id FROM places "
        "WHERE south >= 52.0 AND north <= 52.02 AND west >= 13.0 AND east <= 13.02) ORDER BY id",
    ),
    (
        "[k=v], 68",
        "SELECT line FROM tags JOIN objects USING (kind, id) WHERE key = 'highway' AND value = 'yes1' ORDER BY kind, id",
    ),
    (
        "[k=v], 1,000",
        "SELECT line FROM tags JOIN objects USING (kind, id) WHERE key = 'mark' AND value = 'seldom' ORDER BY kind, id",
    ),
    (
        "[k=v], 10,000",
        "SELECT line FROM tags JOIN objects USING (kind, id) WHERE key = 'name' AND value = 'Weg' ORDER BY kind, id",
    ),
    (
        "[k=v], 100,000",
        "SELECT line FROM tags JOIN objects USING (kind, id) WHERE key = 'mark' AND value = 'often' ORDER BY kind, id",
    ),
    (
        "way(bn) of a box",
        "SELECT line FROM objects WHERE kind = 2 AND id IN (SELECT referrer FROM refs WHERE kind = 2 AND target_kind = 1 "
        "AND target IN (SELECT id FROM places WHERE south >= 52.0 AND north <= 52.02 AND west >= 13.0 AND east <= 13.02)) "
        "ORDER BY id",
    ),
    (
        "> of a way",
        "SELECT line FROM objects WHERE kind = 1 AND id IN "
        "(SELECT target FROM refs WHERE kind = 2 AND referrer = 75000 AND target_kind = 1) ORDER BY id",
    ),
]


def fields(line):
    words = line.split()
    return words[0], {word[0]: word[1:] for word in words[1:]}


def load(database, lines):
    database.executescript(
        "CREATE TABLE objects (kind INTEGER, id INTEGER, line TEXT, PRIMARY KEY (kind, id)) WITHOUT ROWID;"
        "CREATE TABLE tags (key TEXT, value TEXT, kind INTEGER, id INTEGER, PRIMARY KEY (key, value, kind, id)) WITHOUT ROWID;"
        "CREATE TABLE refs (target_kind INTEGER, target INTEGER, kind INTEGER, referrer INTEGER,"
        " PRIMARY KEY (target_kind, target, kind, referrer)) WITHOUT ROWID;"
        "CREATE VIRTUAL TABLE places USING rtree (id, south, north, west, east);"
    )
    for line in lines:
        name, given = fields(line)
        kind, number = KINDS[name[0]], int(name[1:])
        database.execute("INSERT INTO objects VALUES (?, ?, ?)", (kind, number, line))
        for tag in filter(None, given["T"].split(",")):
            key, _, value = tag.partition("=")
            database.execute("INSERT INTO tags VALUES (?, ?, ?, ?)", (key, value, kind, number))
        for item in filter(None, (given.get("N") or given.get("M") or "").split(",")):
            target = item.partition("@")[0]
            row = (KINDS[target[0]], int(target[1:]), kind, number)
            database.execute("INSERT OR IGNORE INTO refs VALUES (?, ?, ?, ?)", row)
        if kind == 1:
            lat, lon = float(given["y"]), float(given["x"])
            database.execute("INSERT INTO places VALUES (?, ?, ?, ?, ?)", (number, lat, lat, lon, lon))
    database.execute("CREATE INDEX referrers ON refs (kind, referrer, target_kind, target)")


def main():
    database = sqlite3.connect(":memory:")
    load(database, sys.stdin)
    for name, question in QUESTIONS:
        times = []
        for _ in range(RUNS):
            start = time.perf_counter()
            text = "".join(line for (line,) in database.execute(question))
            times.append((time.perf_counter() - start) * 1e6)
        print(f"{name:<18} {text.count(chr(10)):>7} lines {statistics.median(times):>9.0f} us")


if __name__ == "__main__":
    main()
