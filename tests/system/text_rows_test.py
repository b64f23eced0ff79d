"""Lines, boxes and queries that were worked by hand (tests/rows), through the program: what is written of them, or
how and where they are refused."""

import os
import tempfile
from concurrent.futures import ThreadPoolExecutor
from pathlib import Path

from lines_rows_test import rows
from runs import PROGRAM, TOP, Outcome, Tally, run

ROWS = TOP / "tests/rows"


def asked(query, line):
    """What `ask` says of a file that is this line, without an end."""
    return run([PROGRAM, "ask", query], line)


def check_written(tally, row):
    mode, line, written = row
    outcome = asked(b"nwr;out " + mode + b";", line)
    tally.check(f"{line} in {mode}", outcome == Outcome(written + b"\n", b"", 0), outcome)


def check_refused_line(tally, row):
    line, told = row
    cause, place = told.split(b" ", 1)
    outcome = asked(b"nwr;out;", line)
    tally.check(f"{line}", outcome == Outcome(b"", cause + b" line 1 " + place + b"\n", 2), outcome)


def check_refused_file(tally, row):
    file, told = row
    outcome = asked(b"nwr;out;", file)
    tally.check(f"{file}", outcome == Outcome(b"", told + b"\n", 2), outcome)


def check_box(tally, row):
    box, node, said = row
    outcome = asked(b"node(" + box + b");out ids;", b"n1 " + node)
    expected = {
        b"in": Outcome(b"n1\n", b"", 0),
        b"out": Outcome(b"", b"", 0),
    }.get(said) or Outcome(b"", said + b"\n", 2)
    tally.check(f"{node} and the box {box}", outcome == expected, outcome)


def members(count, role):
    """The text of so many members with this role."""
    return ",".join([f"n7@{role}"] * count)


def tags(count):
    """The text of so many tags."""
    return ",".join(f"k{number}=" for number in range(count))


# The limits of docs/FORMATS.md: a line, and whether it is read, or at which byte O13 is told. With a value of 229
# bytes the canonical line of 65,535 members, whose role is 63 spaces of four bytes each, has 2^24 bytes.
SPACES = 63 * "%20%"
LIMITS = [
    (f"w7 N{','.join(65535 * ['n7'])}", None),
    (f"w7 N{','.join(65536 * ['n7'])}", 3),
    (f"r7 M{members(65535, 'x')}", None),
    (f"r7 M{members(65536, 'x')}", 3),
    (f"w7 T{tags(65535)}", None),
    (f"w7 T{tags(65536)}", 3),
    (f"r7 M{members(1, 4096 * 'x')} Tb={4096 * 'x'}", None),
    (f"r7 M{members(1, 4097 * 'x')} Tb=1", 3),
    (f"r7 M{members(1, 'x')} Tb={4097 * 'x'}", 9),
    (f"w7 T{4096 * 'x'}= u{4096 * 'x'}", None),
    (f"w7 T{4097 * 'x'}=", 3),
    (f"w7 u{4097 * 'x'}", 3),
    (f"w7 u{4096 * '%20%'}", None),
    (f"w7 u{4097 * '%20%'}", 3),
    (f"r1 Ta=1,b={229 * 'x'} M{members(65535, SPACES)}", None),
    (f"r1 Ta=1,b={230 * 'x'} M{members(65535, SPACES)}", 0),
    (f"r1 Ta=1,a={230 * 'x'} M{members(65535, SPACES)}", 3),
]


def check_limit(tally, row):
    line, byte = row
    outcome = asked(b"nwr;out ids;", line.encode())
    expected = Outcome(line.split(" ", 1)[0].encode() + b"\n", b"", 0)
    if byte is not None:
        expected = Outcome(b"", b"O13 line 1 byte %d\n" % byte, 2)
    tally.check(f"the limits: {line[:40]}.. of {len(line)} bytes", outcome == expected, outcome)


# The bytes of the longest line, and of a piece, as the program reads them.
LONGEST = 2**25
PIECE = 65536

# The first bytes of a file whose next ones are 0xff, none of which ends a line; what is told of it; and how many
# pieces are read: the last byte of the 512th is within the longest line. A line that repeats an object is told after
# the first piece.
ENDLESS_LINES = [
    (b"", b"O12 line 1 byte 33554432\n", 513),
    (b"n1 x1 y1\n", b"O12 line 2 byte 33554432\n", 513),
    (b"n2 x1 y1\nn1 x1 y1\nn1 x1 y1\n", b"O13 line 3 byte 0\n", 1),
]


def check_endless_lines(tally):
    for first, told, pieces in ENDLESS_LINES:
        with tempfile.TemporaryFile() as file:
            file.write(first + (LONGEST + 70_000) * b"\xff")
            file.flush()
            file.seek(0)
            outcome = run([PROGRAM, "ask", "nwr;out;"], file)
            # The program reads at the place that it shares with this file.
            read = os.lseek(file.fileno(), 0, os.SEEK_CUR)
        ended = outcome, read
        tally.check(f"a line without end after {first}", ended == (Outcome(b"", told, 2), pieces * PIECE), ended)


# Files whose first line has the most bytes that a line may have, or one more, its CR counted and its LF not: a comment, and
# an object with spaces behind it. In the last two the line has no end.
FIRST_LINES = [
    (b"#" + (LONGEST - 1) * b"x" + b"\nn2 x1 y1\n", Outcome(b"n2\n", b"", 0)),
    (b"#" + LONGEST * b"x" + b"\nn2 x1 y1\n", Outcome(b"", b"O12 line 1 byte 33554432\n", 2)),
    (b"#" + (LONGEST - 2) * b"x" + b"\r\nn2 x1 y1\n", Outcome(b"n2\n", b"", 0)),
    (b"#" + (LONGEST - 1) * b"x" + b"\r\nn2 x1 y1\n", Outcome(b"", b"O12 line 1 byte 33554432\n", 2)),
    (b"n1 x1 y1".ljust(LONGEST) + b"\nn2 x1 y1\n", Outcome(b"n1\nn2\n", b"", 0)),
    (b"n1 x1 y1".ljust(LONGEST + 1) + b"\nn2 x1 y1\n", Outcome(b"", b"O12 line 1 byte 33554432\n", 2)),
    (b"n1 x1 y1".ljust(LONGEST), Outcome(b"n1\n", b"", 0)),
    (b"n1 x1 y1".ljust(LONGEST + 1), Outcome(b"", b"O12 line 1 byte 33554432\n", 2)),
]


def check_longest_lines(tally):
    for file, expected in FIRST_LINES:
        outcome = asked(b"nwr;out ids;", file)
        size = len(file.split(b"\n", 1)[0])
        tally.check(f"a first line of {size} bytes: {file[:10]}..", outcome == expected, outcome)


# Queries of which the first fault from the left is told, also if they are long or not UTF-8.
FIRST_FAULTS = [
    (b"node;\xff", b"Q1 byte 5"),
    (b"~\xff", b"Q1 byte 1"),
    (33 * b"(", b"Q8 byte 32"),
    (32 * b"(", b"Q11 byte 32"),
    (65537 * b"\xff", b"Q9 byte 65536"),
]


def proved(query):
    """What `prove` says of the query, which may hold any bytes, over a file without objects."""
    with tempfile.TemporaryDirectory() as room:
        names = ["set", "query", "answer", "proof"]
        objects, text, answer, proof = [Path(room) / name for name in names]
        objects.write_bytes(b"")
        text.write_bytes(query)
        outcome = run([PROGRAM, "prove", objects, text, answer, proof])
        return outcome, answer.exists() or proof.exists()


def check_refused_query(tally, row):
    query, told = row
    ended = proved(query)
    tally.check(f"{query[:80]}", ended == (Outcome(b"", told + b"\n", 2), False), ended)


def check_lawful_query(tally, row):
    (query,) = row
    outcome, made = proved(query)
    tally.check(f"{query[:80]}", outcome.status == 0 and outcome.stderr == b"" and made, outcome)


CHECKS = {
    "written.tsv": check_written,
    "refused-lines.tsv": check_refused_line,
    "refused-files.tsv": check_refused_file,
    "boxes.tsv": check_box,
    "refused-queries.tsv": check_refused_query,
    "lawful-queries.tsv": check_lawful_query,
}


def main():
    tally = Tally()
    with ThreadPoolExecutor() as workers:
        for name, check in CHECKS.items():
            found = rows(name, ROWS)
            list(workers.map(lambda row, check=check: check(tally, row), found))
            tally.check(f"{name} has rows", found != [])
        list(workers.map(lambda row: check_limit(tally, row), LIMITS))
    check_endless_lines(tally)
    check_longest_lines(tally)
    for row in FIRST_FAULTS:
        check_refused_query(tally, row)
    check_lawful_query(tally, [65536 * b" "])
    tally.end()


if __name__ == "__main__":
    main()
