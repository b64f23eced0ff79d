"""Every worked row of the project stands in a test: tests/rows/worked.tsv names each by what it shows, with the file and
the function or constant that has it, and a text of the row that stands there. Here that is looked up, so that no row is
lost when tests are rewritten; and the few rows that stand nowhere else are run.

A row of a table (a .tsv file, or a page) is named with the test that reads the file. `-` is the whole file. So that the
text of a row can't be met by chance, it is a whole line of a .tsv file, and elsewhere at least eight characters that stand
just once in the place that is named; how code is broken into lines makes no difference.
"""

import re
import tempfile
from pathlib import Path

import trees
from changes_test import folders, put
from lines_rows_test import set_file
from packs import canonical
from runs import PROGRAM, TOP, Outcome, Tally, run
from serve_test import server, told

LISTED = TOP / "tests/rows/worked.tsv"

# A deleted object alone, in a file of a set; and the same after a byte order mark, which is no object's letter.
REFUSED_LINES = [
    (b"n1 dD", b"O10 line 1 byte 0\n"),
    (b"\xef\xbb\xbfn1 x1 y1", b"O1 line 1 byte 0\n"),
]


# The least number of characters by which a row is known.
SHORTEST = 8

ITEM = r"(?:#\[test\]|///|class |(?:pub(?:\(\w+\))? )?(?:def|fn|const) |[A-Z][A-Z_]+ = )"


def body_of(text, name):
    """The text of a function or a constant, to the next item that stands as far from the margin."""
    head = rf"^( *)(?:pub(?:\(\w+\))? )?(?:def {name}\(|fn {name}\b|(?:const )?{name}\b[^\n]* ?= ?)"
    begun = re.search(head, text, re.MULTILINE)
    if begun is None:
        return None
    ended = re.compile(rf"^{begun[1]}{ITEM}", re.MULTILINE).search(text, begun.end())
    return text[begun.start() : ended.start()] if ended else text[begun.start() :]


def place_of(file, where):
    """The text in which a row is looked for, or None where there is no such place."""
    path = TOP / file
    if not path.is_file():
        return None
    text = path.read_text(encoding="utf-8")
    if where == "-":
        return text
    if where.endswith(".py"):
        reader = TOP / where
        return text if reader.is_file() and path.name in reader.read_text(encoding="utf-8") else None
    return body_of(text, where)


def times_of(place, text, is_table):
    """How many times a row stands in its place: none where the text is too short to tell."""
    if is_table:
        return [line.replace("\t", "\\t") for line in place.splitlines()].count(text)
    return " ".join(place.split()).count(" ".join(text.split())) if len(text.strip()) >= SHORTEST else 0


def check_listed(tally):
    lines = LISTED.read_text(encoding="utf-8").splitlines()
    rows = [line.split("\t") for line in lines if line and not line.startswith("#")]
    tally.check("rows are listed", len(rows) > 150, len(rows))
    for name, file, where, text in rows:
        place = place_of(file, where)
        tally.check(f"{name}: {file} has {where}", place is not None)
        if place is not None:
            times = times_of(place, text, file.endswith(".tsv"))
            tally.check(f"{name}: {text}", times == 1, file, where, f"it stands there {times} times")


def check_refused_lines(tally):
    for line, told in REFUSED_LINES:
        outcome = run([PROGRAM, "ask", "node;out;"], line)
        tally.check(f"{line}", outcome == Outcome(b"", told, 2), outcome)


def check_rivals(tally):
    """65 nodes have the key a, and the last one b too: b is counted as the rarer, so of the tags two leaves are read, that
    of b's entry and, for the count of a, that which has the first of them. With a leaf more the proof has seven nodes."""
    lines = [f"n{n} v0 dV c0 t i0 u Ta=1{',b=1' if n == 65 else ''} x0 y0" for n in range(1, 66)]
    manifest, levels = trees.manifest_of(lines, 1)
    objects, tags = levels[1], levels[2]
    six = [manifest, tags[1][0], *tags[0], objects[1][0], objects[0][1]]
    with tempfile.TemporaryDirectory() as room:
        files = [Path(room) / name for name in ("query", "answer", "proof")]
        (Path(room) / "set.opl").write_text("".join(f"{line}\n" for line in lines), encoding="utf-8")
        files[0].write_bytes(b'node["a"]["b"];out ids;')
        outcome = run([PROGRAM, "prove", Path(room) / "set.opl", *files, "--edition", "1"])
        root = trees.root_of(lines, 1)
        tally.check("rivals: root", outcome == Outcome(f"{root}\n".encode(), b"", 0), outcome)
        tally.check("rivals: answer", files[1].read_bytes() == b"n65\n")
        tally.check("rivals: six nodes", files[2].read_bytes() == trees.proof_of(six), len(set(six)))
        files[2].write_bytes(trees.proof_of([*six, objects[0][0]]))
        outcome = run([PROGRAM, "check", root, *files])
        tally.check("rivals: a seventh", outcome == Outcome(b"no C8\n", b"", 1), outcome)


def check_deleted_node(tally):
    """A change file deletes n1: asked for it, the answer is empty, under the root of the set without it."""
    lines = canonical(set_file(b"F").read_text(encoding="utf-8").splitlines())
    without = trees.root_of([line for line in lines if not line.startswith("n1 ")], 2, 1)
    with folders() as (changes, ready), server(set_file(b"F"), "--connections", 1, "--changes", changes) as running:
        put(changes / "1.opl", b"n1 dD\n", ready)
        got = told(running, [b"GET /api/interpreter?data=node(1);out; HTTP/1.1\r\nConnection: close\r\n\r\n"])
        holds = got.startswith(b"HTTP/1.1 200 ") and got.endswith(b"\r\n\r\n") and without.encode() in got
        tally.check("a deleted node", holds, got, without)


def main():
    tally = Tally()
    check_listed(tally)
    check_refused_lines(tally)
    check_rivals(tally)
    check_deleted_node(tally)
    tally.end()


if __name__ == "__main__":
    main()
