"""Change files that say which root they give: the command `changes`, which writes that line, and `serve`, which publishes
such a file only where its changes give that root, and with `--strict-changes` no other."""

import tempfile
from pathlib import Path

from changes_test import DELETE_WAY, folders, published, put, root_at, without
from lines_rows_test import set_file
from runs import PROGRAM, Outcome, Tally, run
from serve_test import root_of, server

OTHER = b"# root " + b"0" * 64 + b"\n"


def announced(file, sequence, changes, **refusing):
    return run([PROGRAM, "changes", file, str(sequence), changes], refusing=refusing or None)


def check_command(tally):
    """The change file gains its line, and nothing else; the root is that of a publisher who builds anew."""
    whole = set_file(b"F").read_bytes()
    with tempfile.TemporaryDirectory() as folder:
        room = Path(folder)
        after, changes = room / "after.opl", room / "1.opl"
        after.write_bytes(without(whole, b"w10 "))
        root = published(after, 1)
        line = b"# root " + root + b"\n"
        for name, text, want in [
            ("a line end", DELETE_WAY, DELETE_WAY + line),
            ("no line end", DELETE_WAY[:-1], DELETE_WAY + line),
            ("a comment before", b"# by hand\n" + DELETE_WAY, b"# by hand\n" + DELETE_WAY + line),
            ("another root", DELETE_WAY + OTHER, DELETE_WAY + line),
            ("the right root", DELETE_WAY + line, DELETE_WAY + line),
        ]:
            changes.write_bytes(text)
            outcome = announced(set_file(b"F"), 0, changes)
            tally.check(f"changes: {name}", outcome == Outcome(root + b"\n", b"", 0), outcome)
            tally.check(f"changes: {name}: the file", changes.read_bytes() == want, changes.read_bytes())
        for name, text, told in [
            ("an object that isn't there", b"w11 v1 dD\n", b"I2 w11\n"),
            ("twice", DELETE_WAY + DELETE_WAY, b"I3 w10\n"),
            ("no changes", b"n1 x13.4\n", b"O9 line 1 byte 8\n"),
        ]:
            changes.write_bytes(text)
            outcome = announced(set_file(b"F"), 0, changes)
            tally.check(f"changes: {name}", outcome == Outcome(b"", told, 2), outcome)
            tally.check(f"changes: {name}: the file stays", changes.read_bytes() == text and sorted(room.iterdir()) == [changes, after])
        outcome = announced(set_file(b"F"), 2**64 - 1, changes)
        tally.check("changes: no sequence comes next", outcome.status == 2 and outcome.stdout == b"", outcome)
        same = room / "same.opl"
        same.write_bytes(whole)
        outcome = announced(same, 0, same)
        tally.check("changes: one file", outcome == Outcome(b"", b"device\n", 3) and same.read_bytes() == whole, outcome)
        outcome = announced(set_file(b"F"), 0, room / "none.opl")
        tally.check("changes: no such file", outcome == Outcome(b"", b"device\n", 3) and not (room / "none.opl").exists(), outcome)


def check_refused(tally):
    """Each allocation, read and write refused in turn: the old file, or the whole new one. (Where memory runs out for the name
    of the file that is written, that is a file that can't be made.)"""
    whole = set_file(b"F").read_bytes()
    with tempfile.TemporaryDirectory() as folder:
        room = Path(folder)
        after, changes = room / "after.opl", room / "1.opl"
        after.write_bytes(without(whole, b"w10 "))
        root = published(after, 1)
        after.unlink()
        ended = DELETE_WAY + b"# root " + root + b"\n"
        for kind, lines in [("REFUSE_ALLOCATION", (b"no memory\n", b"device\n")), ("REFUSE_READ", (b"device\n",)), ("REFUSE_WRITE", (b"device\n",))]:
            number = named = 0
            while True:
                number += 1
                changes.write_bytes(DELETE_WAY)
                mark = room / "mark"
                outcome = announced(set_file(b"F"), 0, changes, **{kind: number, "REFUSE_MARK": mark})
                if not mark.exists():
                    break
                mark.unlink()
                text = changes.read_bytes()
                is_whole = outcome == Outcome(root + b"\n", b"", 0) and text == ended
                is_refused = outcome.stderr in lines and outcome.status == 3 and text in (DELETE_WAY, ended)
                if kind == "REFUSE_ALLOCATION" and outcome.stderr == b"device\n":
                    # (the name of the file beside the place, and nothing else, is told as a device)
                    named += 1
                    is_refused = is_refused and text == DELETE_WAY
                tally.check(f"{kind} {number}", is_whole or is_refused, outcome, text)
                tally.check(f"{kind} {number}: nothing is left", list(room.iterdir()) == [changes], list(room.iterdir()))
            tally.check(f"{kind}: some were refused", number > 2, number)
            tally.check(f"{kind}: no more than two are told as a device", named <= 2, named)


def check_served(tally):
    """A mirror publishes a file with the right root; one with another root is told (I6), and what was in force stays."""
    whole = set_file(b"F").read_bytes()
    for strict in (False, True):
        words = ["--strict-changes"] if strict else []
        name = "strict" if strict else "as before"
        with folders() as (changes, ready):
            after = ready / "after.opl"
            after.write_bytes(without(whole, b"w10 "))
            roots = [root_of(b"F", b"2").encode(), published(after, 1)]
            right = b"# root " + roots[1] + b"\n"
            lines = []
            with server(set_file(b"F"), "--connections", 20, "--changes", changes, *words) as running:
                rows = [
                    (DELETE_WAY + OTHER, 0),
                    (DELETE_WAY + b"# root " + roots[1][:-1] + b"\n", 0),
                    (DELETE_WAY + b"# root " + roots[1].upper() + b"\n", 0),
                    (DELETE_WAY + b"# root \n", 0),
                ]
                if strict:
                    rows += [(DELETE_WAY, 0), (right + DELETE_WAY, 0)]
                rows.append((DELETE_WAY + right, 1))
                for text, at in rows:
                    put(changes / "1.opl", text, ready)
                    got = root_at(running)
                    tally.check(f"{name}: {text[-40:]}", got == roots[at], got)
                    lines.append(b"" if at else b"I6\n")
                for _ in range(20 - len(rows)):
                    root_at(running)
                outcome = running.ended()
            # (a refusal is told once as long as the reason stays)
            tally.check(f"{name}: what is told", outcome == Outcome(b"", b"I6\n", 0), outcome, lines)
    with folders() as (changes, ready):
        after = ready / "after.opl"
        after.write_bytes(without(whole, b"w10 "))
        with server(set_file(b"F"), "--connections", 1, "--changes", changes) as running:
            put(changes / "1.opl", DELETE_WAY, ready)
            got = root_at(running)
            tally.check("without a line", got == published(after, 1), got)
            tally.check("without a line: nothing is told", running.ended() == Outcome(b"", b"", 0))


def main():
    tally = Tally()
    check_command(tally)
    check_refused(tally)
    check_served(tally)
    tally.end()


if __name__ == "__main__":
    main()
