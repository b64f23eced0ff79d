"""`osm_mirror ask` over devices that fail: each read and each write refused in turn, short reads and writes."""

from ask_memory_test import NODES
from ask_rows_test import TWO_NODES
from runs import PROGRAM, Outcome, Tally, each_refused, run

DEVICE = Outcome(b"", b"device\n", 3)
ASK = [PROGRAM, "ask", "node(1);out;"]

# More than the program reads at once.
MANY = b"".join(b"n%d x%d.25 y1\n" % (i, i % 180) for i in range(1, 20000))

EIO, ENOSPC, TAKES_NOTHING = 5, 28, 0


def check_refused_reads(tally):
    """A read that fails is told, and nothing is written."""
    for stdin, others in [(TWO_NODES, {}), (TWO_NODES, {"SHORT_READS": 1}), (MANY, {})]:
        met = 0
        for number, outcome in each_refused(ASK, stdin, "REFUSE_READ", **others):
            met += 1
            tally.check(f"read {number} of {len(stdin)} bytes, {others}", outcome == DEVICE, outcome)
        tally.check(f"{len(stdin)} bytes, {others}: reads were refused", met > 1)


def check_refused_writes(tally):
    """A write that fails, or takes nothing, is told; what was written is a beginning of the answer."""
    whole = run(ASK, NODES).stdout
    for errno in (EIO, ENOSPC, TAKES_NOTHING):
        for others in ({}, {"SHORT_WRITES": 7}):
            refusing = {"REFUSE_ERRNO": errno} | others
            met = 0
            for number, outcome in each_refused(ASK, NODES, "REFUSE_WRITE", **refusing):
                met += 1
                begun = whole.startswith(outcome.stdout) and len(outcome.stdout) < len(whole)
                holds = begun and outcome == DEVICE._replace(stdout=outcome.stdout)
                tally.check(f"write {number}, {refusing}", holds, outcome)
            tally.check(f"{refusing}: writes were refused", met > 0)


def check_untold_refusals(tally):
    """Where the line on standard error can't be written, the status still tells."""
    for stdin, words, status in [(TWO_NODES, ["ask", "node(1)"], 2), (b"c5\n", ["ask", "x"], 2), (b"", [], 2)]:
        told = run([PROGRAM, *words], stdin).stderr
        for number, outcome in each_refused([PROGRAM, *words], stdin, "REFUSE_WRITE"):
            holds = outcome[::2] == (b"", status) and len(outcome.stderr) < len(told)
            tally.check(f"{words}: write {number} of the refusal", holds, outcome)


def check_short_calls(tally):
    """How many bytes a call moves changes nothing."""
    whole = Outcome(b"n1 T x1.25 y1\n", b"", 0)
    for short in ({}, {"SHORT_READS": 1}, {"SHORT_READS": 4096}, {"SHORT_WRITES": 1}):
        outcome = run(ASK, MANY, short)
        tally.check(f"many objects, {short}", outcome == whole, outcome)


def check_real_devices(tally):
    """A full disk, a folder as input, an empty input."""
    for redirected, want in [
        (">/dev/full", DEVICE),
        ("</", DEVICE),
        ("</dev/null", Outcome(b"", b"", 0)),
    ]:
        outcome = run(["sh", "-c", f'exec "$@" {redirected}', "sh", *ASK], TWO_NODES)
        tally.check(redirected, outcome == want, outcome)


def main():
    tally = Tally()
    check_refused_reads(tally)
    check_refused_writes(tally)
    check_untold_refusals(tally)
    check_short_calls(tally)
    check_real_devices(tally)
    tally.end()


if __name__ == "__main__":
    main()
