"""`publish`, `prove` and `check` with each allocation refused in turn: the whole result, or "no memory"."""

import tempfile
from pathlib import Path

from ask_memory_test import NO_MEMORY, NODES
from runs import PROGRAM, Tally, each_refused, run


def main():
    tally = Tally()
    with tempfile.TemporaryDirectory() as room:
        names = ("set.opl", "query", "bad", "answer", "proof")
        file, query, bad, answer, proof = (str(Path(room) / name) for name in names)
        Path(file).write_bytes(NODES)
        Path(query).write_bytes(b"(node(77)->.a;.a<<;);out;")
        Path(bad).write_bytes(b"(node(77)->.a;.a<<;)")
        root = run([PROGRAM, "prove", file, query, answer, proof]).stdout.decode().strip()
        tally.check("prove", len(root) == 64, root)
        for words in [
            ["publish", file],
            ["publish", file, "--edition", "1"],
            ["prove", file, query, "/dev/null", "/dev/null"],
            ["prove", file, bad, "/dev/null", "/dev/null"],
            ["check", root, query, answer, proof],
            ["check", root, query, answer, proof, "--max-size", "1000000"],
            ["check", root, query, query, proof],
            ["check", root, bad, answer, proof],
            ["check", root[:-1], query, answer, proof],
        ]:
            whole = run([PROGRAM, *words])
            tally.check(f"{words} with ample memory", whole.status in (0, 1, 2), whole)
            refused = 0
            for number, outcome in each_refused([PROGRAM, *words], b"", "REFUSE_ALLOCATION"):
                refused += outcome == NO_MEMORY
                tally.check(f"{words}, allocation {number}", outcome in (whole, NO_MEMORY), outcome)
            tally.check(f"{words}: a refused allocation is told", refused > 0)
    tally.end()


if __name__ == "__main__":
    main()
