"""`osm_mirror ask` with each allocation refused in turn: the whole result, or "no memory", and nothing else."""

from ask_rows_test import TWO_NODES
from runs import PROGRAM, Outcome, Tally, each_refused, run

NO_MEMORY = Outcome(b"", b"no memory\n", 3)

# Enough objects that each list grows several times, with texts.
NODES = b"".join(
    b"n%d v0 dV c0 t i0 u Tname=node-%d,highway=crossing x%d.5 y-%d.0000001\n" % (i, i, i, i % 90)
    for i in range(1, 150)
)

RUNS = [
    (["ask", "node(1);out;"], TWO_NODES),
    (["ask", "node(77);out;"], NODES),
    (["ask", '(node["name"="node-7"]->.a;way(bn.a);.a>;)->.b;.b out ids;'], NODES),
    (["ask", '(node["a\\n"];(node(id:1,2,3'], TWO_NODES),
    (["ask", "node(1)"], TWO_NODES),
    (["ask", "node(1);out;"], NODES + b"c5\n"),
    (["ask", "node(1);out;"], NODES + NODES),
    (["ask"], b""),
    (["--help"], b""),
]


def main():
    tally = Tally()
    for words, stdin in RUNS:
        whole = run([PROGRAM, *words], stdin)
        tally.check(f"{words} with ample memory", whole.status in (0, 2), whole)
        refused = 0
        for number, outcome in each_refused([PROGRAM, *words], stdin, "REFUSE_ALLOCATION"):
            refused += outcome == NO_MEMORY
            name = f"{words}, {len(stdin)} bytes, allocation {number}"
            tally.check(name, outcome in (whole, NO_MEMORY), outcome)
        tally.check(f"{words}: a refused allocation is told", refused > 0)
    tally.end()


if __name__ == "__main__":
    main()
