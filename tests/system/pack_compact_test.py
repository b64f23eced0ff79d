"""`pack --compact`: the pack that is written of the files of a head is, byte for byte, the one that docs/FORMATS.md says of the set,
and `query` and `serve` answer from it; what is refused, or is killed, or whose calls fail, leaves what was there."""

import random
import shutil
import signal
import subprocess
import tempfile
import time
from pathlib import Path

from pack_heads_test import FIRST, QUERIES, SECOND, THIRD, add, folder_of, is_as, model, written_model
from pack_serve_test import answer_to, asked
from packs import pack_of
from runs import PROGRAM, Outcome, Tally, run
from serve_test import server


def compact(folder, place, pack, *words, refusing=None):
    return run([PROGRAM, "pack", "--compact", folder / place, folder / pack, *words], refusing=refusing)


def told(made):
    return Outcome(made.root().encode() + b"\n", b"", 0)


def check_packs(tally, room):
    """After each change the pack is that of the whole set; the files stay as they are."""
    made = model()
    folder = folder_of(made, room / "packs")
    ended = compact(folder, "town.pack", "copy.pack")
    tally.check("a pack alone", ended == told(made) and (folder / "copy.pack").read_bytes() == made.files["town.pack"], ended)
    (folder / "copy.pack").unlink()
    for changes in (FIRST, SECOND, THIRD, b"", b"n1 v9 dD\nn2 v9 dD\nw5 v9 dD\nw7 v9 dD\nr3 v9 dD\n"):
        lines = b"".join(line for line in changes.splitlines(True) if b" v9 " not in line or line.split(b" ")[0] in names_in(made))
        ended = add(folder, lines, "town.pack.head" if len(made.files) > 1 else "town.pack")
        made.apply(lines, (folder / f"town.pack.{len(made.files)}").read_bytes())
        tally.check(f"added {made.sequence}", ended == told(made), ended)
        for words in ([], ["--memory", "0"], ["--temp", room, "--edition", "1"]):
            ended = compact(folder, "town.pack.head", "new.pack", *words)
            tally.check(f"root {made.sequence} {words}", ended == told(made), ended)
            tally.check(f"pack {made.sequence} {words}", (folder / "new.pack").read_bytes() == pack_of(made.nodes()), words)
            (folder / "new.pack").unlink()
            tally.check(f"the others stay {made.sequence}", is_as(folder, made), list(folder.iterdir()))
    return folder, made


def names_in(made):
    return {line.split(" ")[0].encode() for line in made.lines}


def check_answers(tally, room):
    """`query` and `serve` answer from the pack, and changes are added to it."""
    folder = folder_of(model(), room / "answers")
    add(folder, FIRST)
    made = written_model(folder, FIRST)
    compact(folder, "town.pack.head", "new.pack")
    for query in QUERIES:
        want = run([PROGRAM, "ask", query], made.text())
        ended = run([PROGRAM, "query", made.root(), folder / "new.pack", query])
        tally.check(f"query {query}", ended == want and want.status == 0, ended, want)
    with server(folder / "new.pack") as new, server(folder / "town.pack.head") as old:
        for query in QUERIES:
            tally.check(f"serve {query}", answer_to(new, asked(query)) == answer_to(old, asked(query)))
    ended = add(folder, SECOND, "new.pack")
    made = written_model(folder, FIRST)
    made.apply(SECOND)
    tally.check("added to the pack", ended == told(made), ended)
    ended = compact(folder, "new.pack.head", "third.pack")
    tally.check("and once more", ended == told(made) and (folder / "third.pack").read_bytes() == pack_of(made.nodes()), ended)


def check_refusals(tally, room):
    """What is refused is told, and nothing is written."""
    folder = folder_of(model(), room / "refusals")
    add(folder, FIRST)
    made = written_model(folder, FIRST)
    for pack in ("town.pack", "town.pack.1", "town.pack.head"):
        ended = compact(folder, "town.pack.head", pack)
        tally.check(f"in place of {pack}", ended == Outcome(b"", b"device\n", 3) and is_as(folder, made), ended)
    (folder / "link").symlink_to("town.pack.1")
    ended = compact(folder, "town.pack.head", "link")
    tally.check("in place of a file by another name", ended == Outcome(b"", b"device\n", 3), ended)
    (folder / "link").unlink()
    ended = compact(folder, "town.pack", "town.pack")
    tally.check("in place of itself", ended == Outcome(b"", b"device\n", 3) and is_as(folder, made), ended)
    for name, text, line, status in [
        ("none", None, b"device\n", 3),
        ("set.opl", None, b"not a pack\n", 2),
        ("cut.pack", made.files["town.pack"][:-1], b"a pack that is cut short\n", 2),
        ("wrong.head", b"osm_mirror head 1\nroot x\n", b"line 2 of the head is wrong\n", 2),
        ("lacking.head", made.head().replace(b"town.pack.1", b"town.pack.2"), b"device\n", 3),
        ("other.head", made.head().replace(made.root().encode(), b"0" * 64), b"other bytes than asked for\n", 2),
        ("beyond.head", made.head().replace(b"manifest ", b"manifest 9"), b"device\n", 3),
    ]:
        if text is not None:
            (folder / name).write_bytes(text)
        ended = compact(folder, name, "new.pack")
        tally.check(f"of {name}", ended == Outcome(b"", line, status), ended)
        if text is not None:
            (folder / name).unlink()
    tally.check("nothing is written", is_as(folder, made), list(folder.iterdir()))
    ended = compact(folder, "town.pack.head", "nowhere/new.pack")
    tally.check("no folder", ended == Outcome(b"", b"device\n", 3), ended)
    ended = compact(folder, "town.pack.head", "new.pack", "--temp", folder / "nowhere")
    tally.check("no folder for temporary files", ended == Outcome(b"", b"device\n", 3), ended)
    ended = run([PROGRAM, "pack", "--compact", "--add", folder / "town.pack.head", folder / "new.pack"])
    words = b"error: the argument '--add' cannot be used with '--compact'\n\nFor more information, try '--help'.\n"
    tally.check("both flags", ended == Outcome(b"", words, 2), ended)
    (folder / "new.pack").write_bytes(b"older")
    (folder / "other.head").write_bytes(made.head().replace(made.root().encode(), b"0" * 64))
    compact(folder, "other.head", "new.pack")
    tally.check("an older file stays", (folder / "new.pack").read_bytes() == b"older")
    ended = compact(folder, "town.pack.head", "new.pack")
    tally.check("it is replaced", ended == told(made) and (folder / "new.pack").read_bytes() == pack_of(made.nodes()), ended)


def check_damage(tally, room):
    """Whatever bit of a file is turned, the pack is the right one or there is none."""
    folder = folder_of(model(), room / "damage")
    add(folder, FIRST)
    made = written_model(folder, FIRST)
    numbers = random.Random(53)
    refused = 0
    for name in ("town.pack", "town.pack.1", "town.pack.head"):
        whole = (folder / name).read_bytes()
        for _ in range(60):
            at, bit = numbers.randrange(len(whole)), 1 << numbers.randrange(8)
            (folder / name).write_bytes(whole[:at] + bytes([whole[at] ^ bit]) + whole[at + 1 :])
            ended = compact(folder, "town.pack.head", "new.pack")
            if (folder / "new.pack").exists():
                right = ended == told(made) and (folder / "new.pack").read_bytes() == pack_of(made.nodes())
                (folder / "new.pack").unlink()
            else:
                right = ended.stdout == b"" and ended.status in (2, 3) and ended.stderr.count(b"\n") == 1
                refused += 1
            tally.check(f"{name} byte {at}", right, ended)
        (folder / name).write_bytes(whole)
    tally.check("some were refused", refused > 60, refused)


def check_calls(tally, room):
    """Each call that is refused leaves the older file or the new one, and nothing beside it."""
    folder = folder_of(model(), room / "calls")
    add(folder, FIRST)
    made = written_model(folder, FIRST)
    whole = pack_of(made.nodes())
    for kind in ("REFUSE_ALLOCATION", "REFUSE_PREAD", "REFUSE_PWRITE", "REFUSE_WRITE", "REFUSE_SYNC", "REFUSE_RENAME"):
        count = 0
        for number in range(1, 4000):
            (folder / "new.pack").write_bytes(b"older")
            mark = room / "mark"
            ended = compact(folder, "town.pack.head", "new.pack", "--memory", "0", refusing={kind: number, "REFUSE_MARK": mark})
            refused = mark.exists()
            mark.unlink(missing_ok=True)
            now = (folder / "new.pack").read_bytes()
            tally.check(f"{kind} {number}: a pack", now in (b"older", whole), now[:60])
            failed = ended.stdout == b"" and ended.stderr in (b"device\n", b"no memory\n") and ended.status == 3
            tally.check(f"{kind} {number}: told", failed or (ended == told(made) and now == whole), ended)
            (folder / "new.pack").unlink()
            tally.check(f"{kind} {number}: nothing beside", is_as(folder, made), list(folder.iterdir()))
            count += refused
            if not refused:
                break
        tally.check(f"{kind} was refused", count > 0, count)


def check_kills(tally, room):
    """A run that is killed at any moment leaves no pack or the whole one."""
    folder = folder_of(model(), room / "kills")
    add(folder, FIRST)
    made = written_model(folder, FIRST)
    numbers = random.Random(49)
    for turn in range(40):
        running = subprocess.Popen(
            [PROGRAM, "pack", "--compact", folder / "town.pack.head", folder / "new.pack"], stdout=subprocess.DEVNULL, stderr=subprocess.DEVNULL
        )
        time.sleep(numbers.random() * 0.02)
        running.send_signal(signal.SIGKILL)
        running.wait()
        if (folder / "new.pack").exists():
            tally.check(f"kill {turn}", (folder / "new.pack").read_bytes() == pack_of(made.nodes()))
            (folder / "new.pack").unlink()
        for left in (*folder.glob("*.part"), *folder.glob("osm_mirror-scratch.*")):
            left.unlink()
        tally.check(f"kill {turn}: the files stay", is_as(folder, made), list(folder.iterdir()))
    ended = compact(folder, "town.pack.head", "new.pack")
    tally.check("and then it is written", ended == told(made), ended)


def check_many(tally, room):
    """A larger set and many changes: the pack is that of the set's text, byte for byte, with little memory and with much."""
    numbers = random.Random(8)
    folder = room / "many"
    folder.mkdir()
    put = {it: f"n{it} v1 dV c1 t i0 u Tname=a{it % 50} x{it % 360 - 180}.{it % 10} y{it % 170 - 85}.5" for it in range(1, 6001)}
    (folder / "set.opl").write_text("".join(line + "\n" for line in put.values()))
    subprocess.run([PROGRAM, "pack", folder / "set.opl", folder / "town.pack"], stdout=subprocess.DEVNULL, check=True)
    for turn in range(6):
        changes = []
        for it in sorted(numbers.sample(range(1, 6600), 300 if turn != 3 else 6000)):
            if it in put and (turn == 3 or numbers.random() < 0.5):
                changes.append(f"n{it} v2 dD")
                del put[it]
            else:
                put[it] = f"n{it} v{turn + 2} dV c1 t i0 u Tname=b{it % 7} x{it % 360 - 180} y{turn}"
                changes.append(put[it])
        add(folder, "".join(line + "\n" for line in changes).encode())
        (folder / "now.opl").write_text("".join(put[it] + "\n" for it in sorted(put)))
        want = run([PROGRAM, "pack", folder / "now.opl", folder / "wanted.pack", "--sequence", str(turn + 1)])
        for memory in ("1000", "100000000"):
            ended = compact(folder, "town.pack.head", "new.pack", "--memory", memory)
            same = (folder / "new.pack").read_bytes() == (folder / "wanted.pack").read_bytes()
            tally.check(f"turn {turn}", ended == want and want.status == 0 and same, ended, want)
    shutil.rmtree(folder)


def main():
    tally = Tally()
    with tempfile.TemporaryDirectory() as name:
        room = Path(name)
        check_packs(tally, room)
        check_answers(tally, room)
        check_refusals(tally, room)
        check_damage(tally, room)
        check_calls(tally, room)
        check_kills(tally, room)
        check_many(tally, room)
    tally.end()


if __name__ == "__main__":
    main()
