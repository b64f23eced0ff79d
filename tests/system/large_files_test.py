"""Files and answers larger than what the program reads or writes at once arrive whole: every file argument and
every output, of more than 64 KiB and of more than 1 MiB."""

import tempfile
from pathlib import Path

from runs import PROGRAM, Outcome, Tally, run

MEGABYTE = 1 << 20
LONGEST_QUERY = 65536


def tags_of(size):
    """The tags of a node whose line is longer than this. (A text has at most 4,096 bytes.)"""
    return b",".join(b"key%05d=" % i + b"v" * 4000 for i in range(size // 4000 + 1))


def written(room, name, content):
    """A file of this content; its path."""
    path = Path(room) / name
    path.write_bytes(content)
    return path


def check_size(tally, room, size):
    """A set of one long line and many short ones, its answers, proofs and verdicts."""
    tags = tags_of(size)
    short = [b"n%d x%d y1.5" % (i, i % 180) for i in range(2, size // 16)]
    lines = [b"n1 T" + tags + b" x1 y1", *short]
    answer = lines[0] + b"\n"
    tally.check(f"{size}: the files are larger", min(len(b"\n".join(lines)), len(answer)) > size)

    file = written(room, "set.opl", b"\n".join(lines))
    published = run([PROGRAM, "publish", file])
    tally.check(f"{size}: publish", len(published.stdout) == 65 and published[1:] == (b"", 0), published)
    outcome = run([PROGRAM, "ask", "node(1);out;"], b"\n".join(lines))
    tally.check(f"{size}: ask", outcome == Outcome(answer, b"", 0), outcome.stderr)

    # As long as a query may be: zeros before the id.
    query = written(room, "query", b"node(" + b"1".rjust(LONGEST_QUERY - len("node();out;"), b"0") + b");out;")
    made = [Path(room) / "answer", Path(room) / "proof"]
    outcome = run([PROGRAM, "prove", file, query, *made])
    tally.check(f"{size}: prove", outcome == published, outcome)
    tally.check(f"{size}: the answer", made[0].read_bytes() == answer)
    proof = made[1].read_bytes()
    tally.check(f"{size}: the proof is larger", len(proof) > size)
    root = published.stdout.decode().strip()
    outcome = run([PROGRAM, "check", root, query, *made])
    tally.check(f"{size}: check", outcome == Outcome(b"yes\n", b"", 0), outcome)

    # The last bytes count too.
    made[0].write_bytes(answer[:-2] + b"2\n")
    outcome = run([PROGRAM, "check", root, query, *made])
    place = b"no C9 %d\n" % (len(answer) - 2)
    tally.check(f"{size}: a wrong last digit", outcome == Outcome(place, b"", 1), outcome)
    made[0].write_bytes(answer)
    made[1].write_bytes(proof[:-1])
    outcome = run([PROGRAM, "check", root, query, *made])
    tally.check(f"{size}: a proof without its last byte", outcome == Outcome(b"no C2\n", b"", 1), outcome)

    # A query that is longer is refused at the first byte too many.
    query.write_bytes(b"node(" + b"1".rjust(max(size, LONGEST_QUERY), b"0") + b");out;")
    outcome = run([PROGRAM, "prove", file, query, *made])
    tally.check(f"{size}: a query too long", outcome == Outcome(b"", b"Q9 byte 65536\n", 2), outcome)
    outcome = run([PROGRAM, "check", root, query, *made])
    tally.check(f"{size}: a query too long to check", outcome == Outcome(b"no C1 Q9 65536\n", b"", 1), outcome)


def main():
    tally = Tally()
    with tempfile.TemporaryDirectory() as room:
        for size in (LONGEST_QUERY, MEGABYTE):
            check_size(tally, room, size)
    tally.end()


if __name__ == "__main__":
    main()
