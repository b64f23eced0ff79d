"""Objects with as many tags, nodes and members as they may have, with ample memory: they are answered, proved and
checked whole, under the root that is calculated without the program (trees.py)."""

import tempfile
from pathlib import Path

import trees
from runs import PROGRAM, Outcome, Tally, run

MOST = 65_535

TAGS = ",".join(f"k{number:05}=v{number}" for number in range(MOST))
NODES = ",".join(f"n{number}" for number in range(MOST))
MEMBERS = ",".join(f"{'nwr'[number % 3]}{number}@role{number}" for number in range(MOST))

FRONT = "v0 dV c0 t i0 u T"
# Canonical lines, each with a query that prints it whole, one that goes by what it lists, and the answer to that.
LARGE = [
    (f"n5 {FRONT}{TAGS} x0 y0", "node[k65534=v65534];out meta;", "nwr[k00000][k65534=v65534];out ids;", "n5"),
    (f"w7 {FRONT} N{NODES}", "way(7);out meta;", "node(5);way(bn);>;out ids;", "n5"),
    (f"r9 {FRONT} M{MEMBERS}", "rel(9);out meta;", "rel(9);>>;out ids;", "w7"),
]
# What the relation lists is its own way, and what that lists its node.
SMALL = {"w7": [f"n5 {FRONT} x0 y0"], "r9": [f"w7 {FRONT} N"]}


def check_query(tally, room, root, query, answer):
    """The answer, by `ask` and by `prove`, whose proof is accepted; and the place where another answer differs."""
    lines = (room / "set.opl").read_bytes()
    outcome = run([PROGRAM, "ask", query], lines)
    tally.check(f"ask {query}", outcome == Outcome(answer, b"", 0), outcome.stderr, len(outcome.stdout))
    files = [room / name for name in ("query", "answer", "proof")]
    files[0].write_text(query, encoding="utf-8")
    outcome = run([PROGRAM, "prove", room / "set.opl", *files])
    tally.check(f"prove {query}", outcome == Outcome(f"{root}\n".encode(), b"", 0), outcome)
    tally.check(f"prove {query}: answer", files[1].read_bytes() == answer)
    outcome = run([PROGRAM, "check", root, *files])
    tally.check(f"check {query}", outcome == Outcome(b"yes\n", b"", 0), outcome)
    files[1].write_bytes(answer[:-2] + b"?\n")
    outcome = run([PROGRAM, "check", root, *files])
    tally.check(f"check {query}: another answer", outcome == Outcome(b"no C9 %d\n" % (len(answer) - 2), b"", 1), outcome)


def main():
    tally = Tally()
    for line, whole, by_list, listed in LARGE:
        name = line.split()[0]
        lines = sorted([line, *SMALL.get(name, [])], key=lambda it: trees.reference(it.split()[0]))
        with tempfile.TemporaryDirectory() as folder:
            room = Path(folder)
            (room / "set.opl").write_text("".join(f"{it}\n" for it in lines), encoding="utf-8")
            root = trees.root_of(lines, 2)
            outcome = run([PROGRAM, "publish", room / "set.opl"])
            tally.check(f"publish {name}", outcome == Outcome(f"{root}\n".encode(), b"", 0), outcome)
            check_query(tally, room, root, whole, f"{line}\n".encode())
            check_query(tally, room, root, by_list, f"{listed}\n".encode())
    tally.end()


if __name__ == "__main__":
    main()
