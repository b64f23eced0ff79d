"""What `check` reads at most: of the query's file a byte more than a query has, and with `--max-size` of the answer and the
proof a byte more than the limit; files on each side of the limit, and files without an end."""

import fcntl
import os
import subprocess
import tempfile
import threading
import time
from pathlib import Path

from runs import PROGRAM, SECONDS, Outcome, Tally, run

OBJECTS = b"n1 Thighway=crossing x13.4 y52.5\n"
QUERY = b"node(1);out;"
LONGEST_QUERY = 65_536

YES = Outcome(b"yes\n", b"", 0)
TOO_LONG = Outcome(b"no C1 Q9 65536\n", b"", 1)
TOO_LARGE = Outcome(b"", b"too large\n", 3)
DEVICE = Outcome(b"", b"device\n", 3)

# What a pipe is made to hold (F_SETPIPE_SZ of linux/fcntl.h).
SET_PIPE_SIZE = 1031
PIPE_SIZE = 1 << 20


class Files:
    """A query, its answer and its proof, in files."""

    def __init__(self, room):
        self.room = Path(room)
        self.query, self.answer, self.proof = (self.room / name for name in ("query", "answer", "proof"))
        (self.room / "set.opl").write_bytes(OBJECTS)
        self.query.write_bytes(QUERY)
        outcome = run([PROGRAM, "prove", self.room / "set.opl", self.query, self.answer, self.proof])
        assert outcome.status == 0, outcome
        self.root = outcome.stdout.strip()
        self.sizes = [self.answer.stat().st_size, self.proof.stat().st_size]

    def words(self, query=None, answer=None, proof=None, limit=None):
        """The words that check these files, each replaced where another one is named."""
        options = [] if limit is None else ["--max-size", str(limit)]
        return [PROGRAM, "check", *options, self.root, query or self.query, answer or self.answer, proof or self.proof]


def check_sides(tally, files):
    """The answer and the proof on each side of the limit. A wrong answer is too large, and isn't judged."""
    answer, proof = files.sizes
    assert answer < proof
    wrong = files.room / "wrong"
    wrong.write_bytes(b"n1" + b" " * (proof - 1))
    for words, want in [
        (files.words(limit=proof), YES),
        (files.words(limit=proof + 1), YES),
        (files.words(limit=(1 << 64) - 1), YES),
        (files.words(limit=proof - 1), TOO_LARGE),
        (files.words(limit=answer), TOO_LARGE),
        (files.words(limit=answer - 1), TOO_LARGE),
        (files.words(limit=0), TOO_LARGE),
        (files.words(proof=files.answer, limit=answer), Outcome(b"no C2\n", b"", 1)),
        (files.words(proof=files.answer, limit=answer - 1), TOO_LARGE),
        (files.words(answer="/dev/null", proof="/dev/null", limit=0), Outcome(b"no C2\n", b"", 1)),
        (files.words(answer=wrong, limit=proof + 1), Outcome(b"no C9 3\n", b"", 1)),
        (files.words(answer=wrong, limit=proof), TOO_LARGE),
        # The query has a limit of its own, and no other.
        (files.words(answer="/dev/null", proof="/dev/null", limit=len(QUERY) - 1), Outcome(b"no C2\n", b"", 1)),
        # Faults come in the order of reading.
        (files.words(query=files.room / "none", answer="/dev/zero", limit=1), DEVICE),
        (files.words(answer="/dev/zero", proof=files.room / "none", limit=proof), TOO_LARGE),
        (files.words(answer=files.room / "none", proof="/dev/zero", limit=proof), DEVICE),
    ]:
        outcome = run(words)
        tally.check(f"{words[2:]}", outcome == want, outcome)


def check_cut(tally, files):
    """A file whose front is right and that goes on beyond the limit is never taken for its front."""
    for name in ("answer", "proof"):
        longer = files.room / "longer"
        right = getattr(files, name).read_bytes()
        longer.write_bytes(right + b"\n")
        limit = max(files.sizes)
        told = {"answer": b"no C9 %d\n" % files.sizes[0], "proof": b"no C2\n"}[name]
        outcome = run(files.words(**{name: longer}))
        tally.check(f"a longer {name}", outcome == Outcome(told, b"", 1), outcome)
        longer.write_bytes(right + b"\n" * (limit + 1 - len(right)))
        outcome = run(files.words(**{name: longer}, limit=limit))
        tally.check(f"a longer {name}, beyond the limit", outcome == TOO_LARGE, outcome)


def check_queries(tally, files):
    """Queries on each side of their limit."""
    for size, want in [(LONGEST_QUERY, YES), (LONGEST_QUERY + 1, TOO_LONG), (1 << 20, TOO_LONG)]:
        query = files.room / "long"
        query.write_bytes(b"node(" + b"1".rjust(size - len("node();out;"), b"0") + b");out;")
        outcome = run(files.words(query=query))
        tally.check(f"a query of {size} bytes", outcome == want, outcome)


def check_endless(tally, files):
    """Files without an end: a device, and a pipe that somebody goes on writing to."""
    for words, want in [
        (files.words(query="/dev/zero"), TOO_LONG),
        (files.words(query="/dev/zero", limit=100_000_000), TOO_LONG),
        (files.words(answer="/dev/zero", limit=100_000_000), TOO_LARGE),
        (files.words(proof="/dev/zero", limit=100_000_000), TOO_LARGE),
    ]:
        begun = time.monotonic()
        outcome = run(words)
        took = time.monotonic() - begun
        tally.check(f"{words[2:]}", outcome == want and took < 10, outcome, took)
    for name, limit, want in [("query", None, TOO_LONG), ("answer", 1_000, TOO_LARGE), ("proof", 1_000, TOO_LARGE)]:
        pipe = files.room / f"pipe-{name}"
        os.mkfifo(pipe)
        writing = threading.Thread(target=write_on, args=(pipe,))
        writing.start()
        outcome = run(files.words(**{name: pipe}, limit=limit))
        tally.check(f"a pipe without an end as {name}", outcome == want, outcome)
        writing.join()


def write_on(pipe):
    """Writes to a pipe until nobody reads it any more."""
    try:
        with open(pipe, "wb", buffering=0) as file:
            while True:
                file.write(b"node(1);" * 1000)
    except BrokenPipeError:
        pass


def check_taken(tally, files):
    """How many bytes are taken of a pipe: no more than can matter."""
    for name, limit, want, taken in [
        ("query", None, TOO_LONG, LONGEST_QUERY + 1),
        ("query", 1_000, TOO_LONG, LONGEST_QUERY + 1),
        ("answer", 0, TOO_LARGE, 1),
        ("answer", 1_000, TOO_LARGE, 1_001),
        ("answer", LONGEST_QUERY, TOO_LARGE, LONGEST_QUERY + 1),
        ("answer", 100_000, TOO_LARGE, 100_001),
        ("proof", 1_000, TOO_LARGE, 1_001),
        ("proof", 199_999, TOO_LARGE, 200_000),
    ]:
        ours, theirs = os.pipe()
        fcntl.fcntl(ours, SET_PIPE_SIZE, PIPE_SIZE)
        os.write(theirs, b" " * 200_000)
        os.close(theirs)
        words = files.words(**{name: "/dev/stdin"}, limit=limit)
        ended = subprocess.run(words, stdin=ours, capture_output=True, timeout=SECONDS)
        outcome = Outcome(ended.stdout, ended.stderr, ended.returncode)
        left = 0
        while piece := os.read(ours, PIPE_SIZE):
            left += len(piece)
        os.close(ours)
        tally.check(f"taken of {name}, {limit}", (outcome, left) == (want, 200_000 - taken), outcome, left)


def main():
    tally = Tally()
    with tempfile.TemporaryDirectory() as room:
        files = Files(room)
        check_sides(tally, files)
        check_cut(tally, files)
        check_queries(tally, files)
        check_endless(tally, files)
        check_taken(tally, files)
    tally.end()


if __name__ == "__main__":
    main()
