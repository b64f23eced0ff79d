"""`osm_mirror ask`: the rows that its users are shown, with standard output, standard error and status."""

from runs import PROGRAM, Outcome, Tally, run

TWO_NODES = b"n1 Thighway=crossing x13.4 y52.5\nn2 x13.4000001 y52.5\n"
SOUTH_POLE = b"n-3 x-0.0000001 y-90\n"

ANSWERED = [
    (TWO_NODES, "node(1);out;", b"n1 Thighway=crossing x13.4 y52.5\n"),
    (TWO_NODES[:-1], "node(1);out;", b"n1 Thighway=crossing x13.4 y52.5\n"),
    (TWO_NODES, "node(2);out;", b"n2 T x13.4000001 y52.5\n"),
    (TWO_NODES[:-1], "node(2);out;", b"n2 T x13.4000001 y52.5\n"),
    (TWO_NODES, "node(3);out;", b""),
    (SOUTH_POLE, "node(-3);out;", b"n-3 T x-0.0000001 y-90\n"),
    (b"n1 x180 y0\n", "node(1);out;", b"n1 T x180 y0\n"),
    (b"", "node(1);out;", b""),
    # Blanks and comments stand between tokens, and no statement at all prints nothing.
    (TWO_NODES, " node ( 2 ) ; out ; // the second", b"n2 T x13.4000001 y52.5\n"),
    (TWO_NODES, "", b""),
]

REFUSED = [
    (TWO_NODES, "node(1)", b"Q11 byte 7\n"),
    (TWO_NODES, "node(-;", b"Q2 byte 6\n"),
    (TWO_NODES, 'node["a', b"Q3 byte 5\n"),
    (TWO_NODES, "out ids ids;", b"Q5 byte 8\n"),
    (TWO_NODES, "way(1,2,3,4);out;", b"Q7 byte 4\n"),
    (TWO_NODES, 33 * "(", b"Q8 byte 32\n"),
    (TWO_NODES, "node(1,2,0,3);out;", b"Q10 byte 5\n"),
    (b"n1 x13.4\n", "node(1);out;", b"O9 line 1 byte 8\n"),
    (b"n1 x13.4 y52.5 x1\n", "node(1);out;", b"O4 line 1 byte 15\n"),
    (b"n1 Ta=%2 x1 y1\n", "node(1);out;", b"O7 line 1 byte 6\n"),
    (b"n1 Ta=1,a=2 x1 y1\n", "node(1);out;", b"O13 line 1 byte 3\n"),
    (b"n1 x180.0000001 y0\n", "node(1);out;", b"O13 line 1 byte 3\n"),
    (b"c5\n", "node(1);out;", b"O1 line 1 byte 0\n"),
    (b"nx x1 y1\n", "node(1);out;", b"O2 line 1 byte 1\n"),
    (b"n1 z1 x1 y1\n", "node(1);out;", b"O3 line 1 byte 3\n"),
    (b"w7 x1\n", "node(1);out;", b"O5 line 1 byte 3\n"),
    (b"n1 xa y1\n", "node(1);out;", b"O6 line 1 byte 3\n"),
    (b"n1 Ta=\xff x1 y1\n", "node(1);out;", b"O8 line 1 byte 6\n"),
    (b"n1 x1 y1\nn1 dD\n", "node(1);out;", b"O10 line 2 byte 0\n"),
    (b"w7 Nn1x2y3\n", "node(1);out;", b"O11 line 1 byte 3\n"),
    (b"n1 x1 y1\nn1 x1 y1\n", "node(1);out;", b"O13 line 2 byte 0\n"),
    (b"n" * (2**25 + 1), "node(1);out;", b"O12 line 1 byte 33554432\n"),
    (TWO_NODES, "node(9223372036854775808);out;", b"Q6 byte 5\n"),
    (TWO_NODES, "node(1);out;" + 65525 * " ", b"Q9 byte 65536\n"),
    # The line is counted from 1, and the objects are looked at before the query.
    (TWO_NODES + b"c5\n", "node(1);out;", b"O1 line 3 byte 0\n"),
    (b"c5\n", "node(1)", b"O1 line 1 byte 0\n"),
]


def main():
    tally = Tally()
    for stdin, query, stdout in ANSWERED:
        outcome = run([PROGRAM, "ask", query], stdin)
        tally.check(f"{stdin} {query}", outcome == Outcome(stdout, b"", 0), outcome)
    for stdin, query, stderr in REFUSED:
        outcome = run([PROGRAM, "ask", query], stdin)
        tally.check(f"{stdin[:80]} {query[:80]}", outcome == Outcome(b"", stderr, 2), outcome)
    # A query that begins with `-` comes after `--`.
    outcome = run([PROGRAM, "ask", "--", "-x"], TWO_NODES)
    tally.check("ask -- -x", outcome == Outcome(b"", b"Q2 byte 0\n", 2), outcome)
    # A word that isn't text.
    outcome = run([PROGRAM, "ask", b"node(\xff);out;"], TWO_NODES)
    holds = outcome.stdout == b"" and outcome.status == 2 and outcome.stderr != b""
    tally.check("a word that isn't UTF-8", holds, outcome)
    tally.end()


if __name__ == "__main__":
    main()
