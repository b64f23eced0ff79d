"""Lines of OPL, and sets of them: what an independent program says of each (tests/vectors), through the program."""

import re
import tempfile
from concurrent.futures import ThreadPoolExecutor
from pathlib import Path

from runs import PROGRAM, TOP, Outcome, Tally, run

VECTORS = TOP / "tests/vectors"


def unescaped(field):
    """The bytes of a field: `\\n`, `\\t`, `\\xNN` and `\\\\` stand for a byte each."""
    escapes = {b"n": b"\n", b"t": b"\t", b"r": b"\r", b"\\": b"\\"}
    code = rb"\\(x[0-9a-f]{2}|[ntr\\])"
    return re.sub(code, lambda m: escapes.get(m[1]) or bytes([int(m[1][1:], 16)]), field)


def rows(name, folder=VECTORS):
    """The rows of a file, each as a list of bytes; the first line names the columns."""
    lines = (folder / name).read_bytes().split(b"\n")[1:]
    return [[unescaped(field) for field in line.split(b"\t")] for line in lines if line]


def set_file(name):
    """The file of a set of the vectors."""
    return VECTORS / f"set-{name.decode()}.opl"


def canonical(file):
    """The answer to a query for all objects in full: the canonical text of the file's set, or its refusal."""
    with file.open("rb") as stdin:
        return run([PROGRAM, "ask", "nwr;out meta;"], stdin)


def expected(outcome, told):
    """What is to be said of a file that is this one line."""
    if outcome == b"put":
        return Outcome(told + b"\n", b"", 0)
    if outcome == b"skipped":
        return Outcome(b"", b"", 0)
    if outcome == b"delete":
        return Outcome(b"", b"O10 line 1 byte 0\n", 2)
    cause, byte = told.split()
    return Outcome(b"", cause + b" line 1 byte " + byte + b"\n", 2)


def check_line(tally, room, number, row):
    line, outcome, told, body = row
    file = Path(room) / f"{number}.opl"
    # Alone, with its end, with CR and LF; and after a line that is skipped and one that is read.
    endings = [b"", b"\n"] if line.endswith(b"\r") else [b"", b"\n", b"\r\n"]
    for ending in endings:
        file.write_bytes(line + ending)
        ended = canonical(file)
        tally.check(f"line {number} {line} {ending}", ended == expected(outcome, told), ended)
    name = re.match(rb"n(-?\d+) ", told)
    if outcome == b"put" and name:
        file.write_bytes(line)
        with file.open("rb") as stdin:
            ended = run([PROGRAM, "ask", f"node({name[1].decode()});out;"], stdin)
        tally.check(f"line {number} {line}: body", ended == Outcome(body + b"\n", b"", 0), ended)


def check_lines(tally, room):
    numbered = list(enumerate(rows("lines.tsv"), start=1))
    tally.check("all lines are there", len(numbered) == 427, len(numbered))
    with ThreadPoolExecutor() as workers:
        list(workers.map(lambda item: check_line(tally, room, *item), numbered))


F = b"""\
n1 v1 dV c5 t2020-01-02T03:04:05Z i7 uAnn Thighway=crossing x13.4 y52.5
n2 v0 dV c0 t i0 u T x13.4000001 y52.5
w10 v0 dV c0 t i0 u Thighway=primary,name=A%20%B Nn1,n2,n1
r100 v0 dV c0 t i0 u Ttype=route Mw10@outer,n99@stop,r100@
"""

# F with its lines reversed, the fields after the first in another order, two tags changed about, another
# spelling of an escape, CR before LF, a comment, and no end of the last line.
F_AGAIN = (
    b"r100 Mw10@outer,n99@stop,r100@ Ttype=route\r\n"
    b"# x\r\n"
    b"w10 Nn1,n2,n1 Tname=A%0020%B,highway=primary\r\n"
    b"n2 y52.5 x13.4000001\r\n"
    b"n1 y52.5 x13.4 Thighway=crossing uAnn i7 t2020-01-02T03:04:05Z c5 dV v1"
)


def check_spellings(tally, room):
    """One set and one root, however it is spelled; and the first line with a fault is told."""
    root = next(row[3] for row in rows("roots.tsv") if row[:3] == [b"F", b"2", b"0"])
    for text in [F, F_AGAIN]:
        file = Path(room) / "F.opl"
        file.write_bytes(text)
        ended = canonical(file)
        tally.check("F", ended == Outcome(F, b"", 0), ended)
        ended = run([PROGRAM, "publish", file])
        tally.check("F: root", ended == Outcome(root + b"\n", b"", 0), ended)
    for text, told in [
        (b"n1 x1 y1\nn2 dD\nc5\n", b"O10 line 2 byte 0\n"),
        (b"n1 x1 y1\n# x\nn1 x1 y1\nn2 dD\n", b"O13 line 3 byte 0\n"),
        (b"n2 x1 y1\nn1 x1 y1\n\nn2 x2 y2\nc5", b"O13 line 4 byte 0\n"),
        (b"n2 x1 y1\nn1 x1 y1\nc5\nn2 x2 y2", b"O1 line 3 byte 0\n"),
        (b"w1\n \t \r\nr1 Mn1\n", b"O6 line 3 byte 3\n"),
    ]:
        file.write_bytes(text)
        ended = run([PROGRAM, "publish", file])
        tally.check(f"first fault of {text}", ended == Outcome(b"", told, 2), ended)


def main():
    tally = Tally()
    with tempfile.TemporaryDirectory() as room:
        check_lines(tally, room)
        check_spellings(tally, room)
    tally.end()


if __name__ == "__main__":
    main()
