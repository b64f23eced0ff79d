"""`pack --add`: the further file and the head are, byte for byte, what docs/FORMATS.md says of them; `query` and `serve` answer from
the files of a head, on this machine and on a server; a run that is killed or whose calls fail leaves the old head or the new one; and
what is refused leaves the files as they were."""

import os
import random
import shutil
import signal
import subprocess
import tempfile
import time
from pathlib import Path

from http_places_test import static_server
from lines_rows_test import set_file
from pack_files_test import records_of
from packs import canonical, further_of, in_order, pack_of, places_of
from pack_serve_test import answer_to, asked
from runs import PROGRAM, Outcome, Tally, each_refused, run
from serve_test import server
from trees import digest, manifest_of

# The four objects of the worked queries, and what changes make of them: a node more, one that goes, and a way that is another one.
FIRST = b"n9 v1 dV Tname=C x1 y2\nn2 v2 dD\nw7 v2 dV Thighway=path Nn1,n9\n"
SECOND = b"n9 v2 dV Tname=D x1 y2\n"
THIRD = b"n2 v3 dV x1 y2\nn9 v3 dD\n"


class Model:
    """The files and the head of a set by the page's words: nodes are listed in the order of a pack."""

    def __init__(self, lines, sequence):
        self.lines, self.sequence, self.places = lines, sequence, {}
        nodes = self.nodes()
        self.files = {"town.pack": pack_of(nodes)}
        self.places = places_of(nodes)
        self.manifest = nodes[0]
        self.held = set(nodes)

    def nodes(self):
        manifest, trees = manifest_of(self.lines, 2, self.sequence)
        return list(dict.fromkeys(in_order(manifest, list(trees.values()))))

    def root(self):
        return digest(self.manifest).hex()

    def apply(self, changes, written=None):
        """Puts the objects of these lines in, and takes out those that are deleted. The new nodes come in the order that the file
        which was written has; in any order, where none is given."""
        put = {line.split(" ")[0]: line for line in self.lines}
        for line in changes.decode().splitlines():
            name = line.split(" ")[0]
            if " dD" in line:
                del put[name]
            else:
                put[name] = canonical([line])[0]
        self.lines = sorted(put.values(), key=lambda it: ("nwr".index(it[0]), int(it.split(" ")[0][1:])))
        self.sequence += 1
        nodes, number = self.nodes(), len(self.files)
        new = [node for node in nodes if node not in self.held]
        if written is not None:
            order = records_of(written)
            assert sorted(order) == sorted(new), order
            new = order
        self.files[f"town.pack.{number}"] = further_of(number, new, self.places)
        self.places |= places_of(new, number)
        self.manifest, self.held = nodes[0], set(nodes)

    def head(self):
        place = self.places[digest(self.manifest)]
        at = place.file * 2**48 + place.at
        files = "".join(f"file {len(text)} {name}\n" for name, text in self.files.items())
        return f"osm_mirror head 1\nroot {self.root()}\nsequence {self.sequence}\nmanifest {at} {place.length}\n{files}".encode()

    def text(self):
        return "".join(line + "\n" for line in self.lines).encode()


def model():
    """The four objects at sequence 7."""
    return Model(canonical(set_file(b"F").read_text().splitlines()), 7)


def model_after(*changes):
    """What these changes make of the four objects, one after the other."""
    made = model()
    for it in changes:
        made.apply(it)
    return made


def written_model(folder, *changes):
    """The same, with the files that were written in a folder."""
    made = model()
    for number, it in enumerate(changes, 1):
        made.apply(it, (folder / f"town.pack.{number}").read_bytes())
    return made


def folder_of(model, folder):
    """The model's pack in a folder of its own, made by the program."""
    folder.mkdir()
    (folder / "set.opl").write_bytes(model.text())
    ended = run([PROGRAM, "pack", folder / "set.opl", folder / "town.pack", "--sequence", str(model.sequence)])
    assert ended == Outcome(model.root().encode() + b"\n", b"", 0), ended
    return folder


def add(folder, changes, place="town.pack", refusing=None):
    (folder / "changes.opl").write_bytes(changes)
    return run([PROGRAM, "pack", "--add", folder / "changes.opl", folder / place], refusing=refusing)


def is_as(folder, model):
    """Whether the folder has the model's files, and no other beside what the tests put there."""
    files = {it.name: it.read_bytes() for it in folder.iterdir() if it.name not in ("set.opl", "changes.opl")}
    wanted = dict(model.files)
    if len(model.files) > 1:
        wanted["town.pack.head"] = model.head()
    return files == wanted


def check_files(tally, room):
    """Two further files and their heads are those that the page's words make, and the root that is printed is theirs."""
    made = model()
    folder = folder_of(made, room / "files")
    tally.check("the pack", is_as(folder, made), list(folder.iterdir()))
    for changes, place in [(FIRST, "town.pack"), (SECOND, "town.pack"), (THIRD, "town.pack.head")]:
        ended = add(folder, changes, place)
        made.apply(changes, (folder / f"town.pack.{len(made.files)}").read_bytes())
        tally.check(f"root {made.sequence}", ended == Outcome(made.root().encode() + b"\n", b"", 0), ended)
        tally.check(f"files {made.sequence}", is_as(folder, made), list(folder.iterdir()))
    expected = model_after(FIRST, SECOND, THIRD, SECOND).root().encode()
    ended = add(folder, SECOND + b"# root " + expected + b"\n")
    made.apply(SECOND, (folder / "town.pack.4").read_bytes())
    tally.check("an announced root", ended == Outcome(expected + b"\n", b"", 0) and is_as(folder, made), ended)
    return folder, made


QUERIES = ["node(9);out;", "nwr;out;", "way[highway];>;out;", "node(1,1,2,2);<;out;", "node(2);out;"]


def check_answers(tally, folder, made):
    """`query` finds in the files of a head what `ask` finds in the set, on this machine and on a server; so does `serve`."""
    (folder / "now.opl").write_bytes(made.text())
    wanted = {query: run([PROGRAM, "ask", query], made.text()) for query in QUERIES}
    for query, want in wanted.items():
        ended = run([PROGRAM, "query", made.root(), folder / "town.pack.head", query])
        tally.check(f"query {query}", ended == want and want.status == 0, ended, want)
        ended = run([PROGRAM, "query", made.root(), "town.pack.head", query])
        tally.check("a head that isn't there", ended == Outcome(b"", b"the device failed\n", 3), ended)
    with static_server(folder) as port:
        for query, want in wanted.items():
            for words in ("town.pack.head", "town.pack.head?of=today"):
                ended = run([PROGRAM, "query", made.root(), f"http://127.0.0.1:{port}/{words}", query])
                tally.check(f"over HTTP {query}", ended == want, ended, want)
    with server(folder / "town.pack.head") as files, server(folder / "now.opl", "--sequence", str(made.sequence)) as text:
        line = f"osm_mirror listens on 127.0.0.1:{files.port}, over a pack, root {made.root()}\n".encode()
        tally.check("serve begins", files.line == line, files.line)
        for query in QUERIES:
            want, got = answer_to(text, asked(query)), answer_to(files, asked(query))
            tally.check(f"serve {query}", got == want and got.startswith(b"HTTP/1.1 200 OK\r\n"), got[:200])
    (folder / "now.opl").unlink()


def check_damage(tally, room):
    """No bit of a file or of a head that is turned makes another answer."""
    folder = folder_of(model(), room / "damage")
    add(folder, FIRST)
    made = written_model(folder, FIRST)
    want = run([PROGRAM, "ask", "nwr;out;"], made.text())
    words = [PROGRAM, "query", made.root(), folder / "town.pack.head", "nwr;out;"]
    numbers = random.Random(52)
    for name in ("town.pack", "town.pack.1", "town.pack.head"):
        whole = (folder / name).read_bytes()
        for _ in range(60):
            at, bit = numbers.randrange(len(whole)), 1 << numbers.randrange(8)
            (folder / name).write_bytes(whole[:at] + bytes([whole[at] ^ bit]) + whole[at + 1 :])
            ended = run(words)
            right = ended == want or (ended.stdout == b"" and ended.status in (1, 2, 3) and ended.stderr.count(b"\n") == 1)
            tally.check(f"{name} byte {at}", right, ended)
        (folder / name).write_bytes(whole)
    tally.check("well again", run(words) == want, run(words))


def check_refusals(tally, room):
    """What is refused is told, and leaves the files as they were."""
    made = model()
    folder = folder_of(made, room / "refusals")
    rows_told = [
        (b"n8 v2 dD\n", b"I2 n8\n", 2),
        (b"n1 v2 dD\nn1 v3 dV x1 y1\n", b"I3 n1\n", 2),
        (b"n1 v2 dV x1\n", None, 2),
        (FIRST + b"# root " + bytes(64) + b"\n", b"I6\n", 2),
    ]
    for changes, told, status in rows_told:
        ended = add(folder, changes)
        tally.check(f"{changes}", ended.stdout == b"" and ended.status == status and told in (None, ended.stderr), ended)
        tally.check(f"{changes}: nothing is written", is_as(folder, made), list(folder.iterdir()))
    for name, text, told, status in [
        ("none", None, b"device\n", 3),
        ("set.opl", None, b"not a pack\n", 2),
        ("cut.pack", made.files["town.pack"][:-1], b"a pack that is cut short\n", 2),
        ("a pack", made.files["town.pack"], b"a name that a head can't have\n", 2),
        ("wrong.head", b"osm_mirror head 1\nroot x\n", b"line 2 of the head is wrong\n", 2),
    ]:
        if text is not None:
            (folder / name).write_bytes(text)
        ended = add(folder, FIRST, name)
        tally.check(f"to {name}", ended == Outcome(b"", told, status), ended)
        if text is not None:
            (folder / name).unlink()
    tally.check("nothing is written", is_as(folder, made), list(folder.iterdir()))
    (folder / "town.pack.head").write_bytes(b"something else\n")
    ended = add(folder, FIRST)
    tally.check("no head in its place", ended == Outcome(b"", b"line 1 of the head is wrong\n", 2), ended)
    tally.check("what is there stays", (folder / "town.pack.head").read_bytes() == b"something else\n")
    (folder / "town.pack.head").unlink()
    (folder / "town.pack.1").write_bytes(FIRST)
    ended = run([PROGRAM, "pack", "--add", folder / "town.pack.1", folder / "town.pack"])
    tally.check("the changes where the file is to be", ended == Outcome(b"", b"device\n", 3), ended)
    tally.check("they stay", (folder / "town.pack.1").read_bytes() == FIRST)
    # (what a run leaves that was killed between two renames is replaced)
    ended = add(folder, FIRST)
    made = written_model(folder, FIRST)
    tally.check("a file that no head names", ended == Outcome(made.root().encode() + b"\n", b"", 0) and is_as(folder, made), ended)
    other = model().root()
    ended = run([PROGRAM, "query", other, folder / "town.pack.head", "nwr;out;"])
    tally.check("a head of another root", ended == Outcome(b"", b"a pack of another root\n", 1), ended)
    with server(folder / "town.pack.head", "--connections", "0") as running:
        tally.check("serve ends", running.ended() == Outcome(b"", b"", 0))
    (folder / "town.pack.head").write_bytes(made.head()[:-1])
    for words in (["query", made.root(), folder / "town.pack.head", "nwr;out;"], ["serve", folder / "town.pack.head", "0"]):
        ended = run([PROGRAM, *words])
        tally.check(f"{words[0]} of a head without its end", ended == Outcome(b"", b"line 7 of the head is wrong\n", 2), ended)


def check_calls(tally, room):
    """Each call that is refused leaves the old head or the new one, and files that have what it says."""
    kept = folder_of(model(), room / "kept")
    add(kept, FIRST)
    shutil.copytree(kept, room / "whole")
    add(room / "whole", SECOND)
    before, made = written_model(kept, FIRST), written_model(room / "whole", FIRST, SECOND)
    for kind in ("REFUSE_ALLOCATION", "REFUSE_READ", "REFUSE_WRITE", "REFUSE_SYNC", "REFUSE_RENAME"):
        count = 0
        for number in range(1, 4000):
            folder = room / "calls"
            shutil.copytree(kept, folder)
            mark = room / "mark"
            ended = add(folder, SECOND, refusing={kind: number, "REFUSE_MARK": mark})
            refused = mark.exists()
            mark.unlink(missing_ok=True)
            head = (folder / "town.pack.head").read_bytes()
            now = made if head == made.head() else before
            whole = all((folder / name).read_bytes() == text for name, text in now.files.items())
            tally.check(f"{kind} {number}: a head", head == now.head() and whole, head)
            told = ended.stdout == b"" and ended.stderr in (b"device\n", b"no memory\n") and ended.status == 3
            tally.check(f"{kind} {number}: told", told or ended == Outcome(made.root().encode() + b"\n", b"", 0), ended)
            tally.check(f"{kind} {number}: nothing beside", list(folder.glob("*.part")) == [], list(folder.iterdir()))
            shutil.rmtree(folder)
            count += refused
            if not refused:
                break
        tally.check(f"{kind} was refused", count > 0, count)


def check_kills(tally, room):
    """A run that is killed at any moment leaves the old head or the new one."""
    before, made = model(), model_after(FIRST)
    numbers = random.Random(48)
    heads = set()
    for turn in range(60):
        folder = folder_of(model(), room / f"kill-{turn}")
        (folder / "changes.opl").write_bytes(FIRST)
        running = subprocess.Popen([PROGRAM, "pack", "--add", folder / "changes.opl", folder / "town.pack"], stdout=subprocess.DEVNULL, stderr=subprocess.DEVNULL)
        time.sleep(numbers.random() * 0.02)
        running.send_signal(signal.SIGKILL)
        running.wait()
        head = folder / "town.pack.head"
        now = made if head.exists() else before
        heads.add(head.exists())
        words = [PROGRAM, "query", now.root(), head if head.exists() else folder / "town.pack", "nwr;out;"]
        tally.check(f"kill {turn}", run(words) == run([PROGRAM, "ask", "nwr;out;"], now.text()), run(words))
        made_again = add(folder, FIRST if now is before else SECOND)
        tally.check(f"kill {turn}: goes on", made_again.status == 0, made_again)
        shutil.rmtree(folder)


def check_many(tally, room):
    """A larger set and many changes: the head's files answer as the set does."""
    numbers = random.Random(7)
    lines = [f"n{it} v1 dV c1 t i0 u Tname=a{it % 50} x{it % 360 - 180}.{it % 10} y{it % 170 - 85}.5" for it in range(1, 3001)]
    folder = room / "many"
    folder.mkdir()
    (folder / "set.opl").write_text("".join(line + "\n" for line in lines))
    subprocess.run([PROGRAM, "pack", folder / "set.opl", folder / "town.pack"], stdout=subprocess.DEVNULL, check=True)
    put = {int(line.split(" ")[0][1:]): line for line in lines}
    for turn in range(12):
        changes = []
        for it in sorted(numbers.sample(range(1, 3600), 40 if turn != 8 else 3200)):
            if it in put and (turn == 8 or numbers.random() < 0.5):
                changes.append(f"n{it} v2 dD")
                del put[it]
            else:
                put[it] = f"n{it} v{turn + 2} dV c1 t i0 u Tname=b{it % 7} x{it % 360 - 180} y{turn}"
                changes.append(put[it])
        ended = add(folder, "".join(line + "\n" for line in changes).encode())
        text = "".join(put[it] + "\n" for it in sorted(put)).encode()
        (folder / "now.opl").write_bytes(text)
        want = run([PROGRAM, "publish", folder / "now.opl", "--sequence", str(turn + 1)])
        tally.check(f"root {turn}", ended == want and want.status == 0, ended, want)
        for query in ("nwr;out;", "node[name=b3];out;", "node(-10,-10,10,10);out;"):
            found = run([PROGRAM, "query", want.stdout.decode().strip(), folder / "town.pack.head", query])
            tally.check(f"query {turn} {query}", found == run([PROGRAM, "ask", query], text), found.stdout[:200])


def main():
    tally = Tally()
    with tempfile.TemporaryDirectory() as name:
        room = Path(name)
        folder, made = check_files(tally, room)
        check_answers(tally, folder, made)
        check_damage(tally, room)
        check_refusals(tally, room)
        check_calls(tally, room)
        check_kills(tally, room)
        check_many(tally, room)
    tally.end()


if __name__ == "__main__":
    main()
