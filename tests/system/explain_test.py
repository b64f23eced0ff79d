"""What the program says of codes: `explain`, and the words below a fault's line where standard error is a terminal."""

import os
import pty
import re
import select
import socket
import subprocess
import tempfile
from pathlib import Path

from runs import PROGRAM, SECONDS, TOP, Outcome, Tally, run

# A row of the index of codes: the code, or the line in place of one, and what it means.
ROW = re.compile(r"^\| ([MOQNVIEPCGD]\d+|`[a-z ]+`) \| ([^|]*) \|")


def index_of_codes():
    """The codes of docs/FORMATS.md, each with its meaning, in the order of the page."""
    text = (TOP / "docs/FORMATS.md").read_text(encoding="utf-8")
    index = text.split("## Index of codes", 1)[1].split("\n## ", 1)[0]
    return [(row[1].strip("`"), row[2].strip().replace("`", "")) for row in map(ROW.match, index.splitlines()) if row]


def explains_each_code(tally):
    """The program explains each code of the index, with the same meaning."""
    codes = index_of_codes()
    tally.check("index is read", len(codes) > 77, len(codes))
    for code, meaning in codes:
        outcome = run([PROGRAM, "explain", code])
        lines = outcome.stdout.decode().splitlines()
        tally.check(f"explain {code}", outcome.status == 0 and lines[0] == f"{code}: {meaning}", outcome, meaning)
        tally.check(
            f"explain {code}, three lines",
            len(lines) == 3 and lines[1].startswith("Told: ") and lines[2].startswith("What to do: "),
            lines,
        )


def explains_other_words(tally):
    """Letters of the other case, and what is no code."""
    tally.check("explain o9", run([PROGRAM, "explain", "o9"]) == run([PROGRAM, "explain", "O9"]))
    for words in ["O16", "", "Z1", "O9 "]:
        outcome = run([PROGRAM, "explain", words])
        tally.check(f"explain {words!r}", outcome == Outcome(b"", b"no such code\n", 2), outcome)


def run_on_terminal(words, stdin=b"", is_whole=False):
    """What a run writes on standard error where that is a terminal, with its output where it `is_whole`, and its status."""
    ours, theirs = pty.openpty()
    output = theirs if is_whole else subprocess.PIPE
    process = subprocess.Popen(words, stdin=subprocess.PIPE, stdout=output, stderr=theirs)
    os.close(theirs)
    process.stdin.write(stdin)
    process.stdin.close()
    written = b""
    while select.select([ours], [], [], SECONDS)[0]:
        try:
            piece = os.read(ours, 65536)
        except OSError:
            break
        if not piece:
            break
        written += piece
    os.close(ours)
    if not is_whole:
        process.stdout.close()
    return written.decode().replace("\r\n", "\n"), process.wait(timeout=SECONDS)


# A query of the word, and the words below the line of its fault.
QUERIES = [
    ("node({{bbox}});out;", "Q2 byte 5\nnode({{bbox}});out;\n     ^\n", "a template of overpass turbo: put in numbers"),
    ('node["a"~"b"];out;', 'Q7 byte 8\nnode["a"~"b"];out;\n        ^\n', "regular expressions are left out"),
    ("way(1,2,3,4);out;", "Q7 byte 4\nway(1,2,3,4);out;\n    ^\n", "boxes on ways and relations are left out"),
    ("node(1)", "Q11 byte 7\nnode(1)\n       ^\n", "the query ends too early"),
    ("node(1);\nout \x1b[2J;", "Q2 byte 13\nout ?[2J;\n    ^\n", "a character that can't come here"),
]


def tells_queries(tally):
    """A refused query is shown with a caret below the place of its fault."""
    for query, line, words in QUERIES:
        told, status = run_on_terminal([PROGRAM, "ask", query], b"n1 x1 y1\n")
        tally.check(f"terminal {query!r}", status == 2 and told.startswith(line) and words in told, told, status)
        on_pipe = run([PROGRAM, "ask", query], b"n1 x1 y1\n")
        first = (line.split("\n", 1)[0] + "\n").encode()
        tally.check(f"pipe {query!r}", on_pipe == Outcome(b"", first, 2), on_pipe)


# The first bytes of a file that isn't OPL, and what is said of it.
FILES = [
    (b"\x00\x00\x00\x0d\x0a\x09OSMHeader\x18", "a PBF file and not OPL: osmium cat -f opl turns it into OPL"),
    (b"\x1f\x8b\x08\x00", "a gzip file"),
    (b"BZh91AY", "a bzip2 file"),
    (b"<?xml version='1.0'?>\n<osm>", "XML and not OPL: osmium cat -f opl turns it into OPL"),
    (b'{"type":"FeatureCollection"}', "JSON and not OPL"),
    (b"\xef\xbb\xbfn1 x1 y1", "a byte order mark"),
    (b"c5", "the line begins with no object's letter"),
]


def tells_files(tally):
    """A file that is no OPL is told by its kind; a file that isn't there, a folder and a full disk by name and reason."""
    with tempfile.TemporaryDirectory() as room:
        for number, (front, words) in enumerate(FILES):
            path = Path(room) / f"{number}.osm"
            path.write_bytes(front)
            told, status = run_on_terminal([PROGRAM, "publish", path])
            tally.check(f"terminal {front!r}", status == 2 and words in told, told, status)
        missing = Path(room) / "missing.opl"
        told, status = run_on_terminal([PROGRAM, "publish", missing])
        tally.check("missing file", status == 3 and told.startswith(f"device\n{missing}: No such file"), told, status)
        told, status = run_on_terminal([PROGRAM, "publish", room])
        tally.check("folder", status == 3 and told.startswith(f"device\n{room}: Is a directory"), told, status)
        objects, query = Path(room) / "objects.opl", Path(room) / "query"
        objects.write_text("n1 x1 y1\n")
        query.write_text("node(1);out;")
        told, status = run_on_terminal([PROGRAM, "prove", objects, query, "/dev/full", Path(room) / "proof"])
        tally.check("full disk", status == 3 and "device\n/dev/full: No space left on device" in told, told, status)
        with socket.create_server(("127.0.0.1", 0)) as taken:
            port = str(taken.getsockname()[1])
            told, status = run_on_terminal([PROGRAM, "serve", objects, port])
            is_named = told.startswith(f"device\nport {port}: Address already in use")
            tally.check("a port that is taken", status == 3 and is_named, told, status)


# What is shown of a large set while its trees are built, one after the other on one line.
TREES = ["1 of 4, objects", "2 of 4, tags", "3 of 4, places", "4 of 4, back references"]
ERASE = "\r\x1b[2K"


def shows_trees(tally):
    """Which tree is being built is shown on a terminal alone, and is gone before the output is written."""
    with tempfile.TemporaryDirectory() as room:
        large, small = Path(room) / "large.opl", Path(room) / "small.opl"
        large.write_text("".join(f"n{number} x1 y1\n" for number in range(1, 60_001)))
        small.write_text("n1 x1 y1\n")
        on_pipe = run([PROGRAM, "publish", large])
        root = on_pipe.stdout.decode()
        tally.check("trees on a pipe", on_pipe.status == 0 and len(root) == 65 and on_pipe.stderr == b"", on_pipe)
        shown = "".join(f"{ERASE}building tree {name}" for name in TREES)
        told, status = run_on_terminal([PROGRAM, "publish", large], is_whole=True)
        tally.check("trees on a terminal", status == 0 and told.startswith(f"{shown}{ERASE}{root}"), told, status)
        told, status = run_on_terminal([PROGRAM, "publish", small], is_whole=True)
        tally.check("small set on a terminal", status == 0 and "building" not in told, told, status)


def main():
    tally = Tally()
    explains_each_code(tally)
    explains_other_words(tally)
    tells_queries(tally)
    tells_files(tally)
    shows_trees(tally)
    tally.end()


main()
