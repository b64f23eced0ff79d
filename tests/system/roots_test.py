"""`publish` in both editions: the roots of the vectors' sets, and the words that are refused."""

from lines_rows_test import rows, set_file
from runs import PROGRAM, Outcome, Tally, run


def options_of(edition, sequence):
    """The ways to ask for a root: edition 2 and sequence number 0 may be left out, and edition 1 has none."""
    if edition == b"1":
        return [["--edition", "1"], ["--edition", "1", "--sequence", "7"]]
    options = [["--edition", "2", "--sequence", sequence], ["--sequence", sequence]]
    if sequence == b"0":
        options += [["--edition", "2"], []]
    return options


def check_roots(tally):
    """Each set of the vectors has its roots."""
    listed = [row for row in rows("roots.tsv") if row[1] != b"0"]
    tally.check("all roots are there", len(listed) == 18, len(listed))
    for name, edition, sequence, root, *_ in listed:
        for options in options_of(edition, sequence):
            ended = run([PROGRAM, "publish", set_file(name), *options])
            tally.check(f"root of {name} {options}", ended == Outcome(root + b"\n", b"", 0), ended)


def check_refused(tally):
    ended = run([PROGRAM, "publish", "no-such-file", "--edition", "3"])
    tally.check("edition 3", ended == Outcome(b"", b"bad edition\n", 2), ended)
    ended = run([PROGRAM, "publish", set_file(b"one"), "--sequence", "x"])
    tally.check("sequence x", ended.stdout == b"" and ended.stderr != b"" and ended.status == 2, ended)


def main():
    tally = Tally()
    check_roots(tally)
    check_refused(tally)
    tally.end()


if __name__ == "__main__":
    main()
