"""docs/FORMATS.md says which lines the program prints: the table of lines on standard error and the index of codes are read
from the page, and each line is had from the program, by a run that is made for it.

A line that no test can have is in UNREACHED. What the page says is never printed must be none of the codes that are had.
"""

import re
import socket
import subprocess
import tempfile
import threading
from contextlib import contextmanager
from pathlib import Path
from urllib.parse import quote

import packs
import trees
from fetch_test import checked_body, fetched, mirror, response
from formats_test import CODE, FOUR, PAGE, QUOTED, Page, check_found, column
from lines_rows_test import set_file
from runs import PROGRAM, SECONDS, Outcome, Tally, run
from serve_test import refused_in_request, server, told
from trees import digest, reference

# Two nodes that share a digest, a tree of more than 2^29 entries, a file of 2^32 reads; files that list a node which changes make
# before it is there; and a further file of more than 2^48 bytes.
UNREACHED = {"I1", "I4", "O15", "a malformed node", "the pack is too long"}

# How the page shortens a root, and the ports and the mirror that it names (the mirror's name has to lead somewhere).
SHORTENED = {"e669..": "[0-9a-f]{64}", "8080, over": r"\d+, over", "8090, relays": r"\d+, relays", "mirror.example": r"127\.0\.0\.1"}

# The servers that begin with a line, by a part of it.
LISTENERS = {" objects,": "serve", "over a pack,": "serve a pack", "relays ": "relay"}

QUERY = "node(1);out;"

# A file of one line for each code.
LINES = {
    "O1": b"c5", "O2": b"n", "O3": b"n1 n2 x1 y1", "O4": b"n1 x1 y1 x1", "O5": b"w7 x1", "O6": b"n1 v4294967296 x1 y1",
    "O7": b"n1 Ta=%2 x1 y1", "O8": b"n1 u\xff x1 y1", "O9": b"n1 x13.4", "O10": b"n1 dD", "O11": b"w7 Nn1x2y3",
    "O12": b"#" + 2**25 * b"x", "O13": b"n1 x181 y1",
}

QUERIES = {
    "Q1": b"\xff", "Q2": b"~", "Q3": b'node["a', "Q4": b'node["\\x"];', "Q5": b"out ids ids;",
    "Q6": b"node(9223372036854775808);", "Q7": b"out count;", "Q8": 33 * b"(", "Q9": 65_537 * b" ", "Q10": b"node(1,2,0,3);",
    "Q11": b"node(1)",
}

# What the program prints in place of a code: a line, a file or a query with that fault.
IN_PLACE = {
    "M1": {"line": b"n1 x y1"},
    "M2": {"line": b"n1 xa y1"},
    "M3": {"line": b"n1 x1.12345678 y1"},
    "M4": {"line": b"n1 x181 y1", "query": b"node(91,0,92,0);out;"},
    "M5": {"query": b"node(1,2,0,3);out;"},
    "M6": {"file": b"n1 x1 y1\nn1 x1 y1"},
    "M7": {"line": b"n1 Ta=1,a=2 x1 y1"},
    "M8": {"line": b"n1 u" + 4097 * b"x" + b" x1 y1"},
}


# ---- Nodes that no publisher makes


def by_hand(objects=None, tags=None, front=b"OSMM\1"):
    """A manifest, of edition 1 if it doesn't begin otherwise, over these two trees, each a list of its levels, leaves first, and two
    without entries; and its nodes."""
    empty = [[[trees.leaf(tree, [])]] for tree in (1, 2, 3, 4)]
    levels = [objects or empty[0], tags or empty[1], empty[2], empty[3]]
    manifest = front + b"".join(digest(it[-1][0]) for it in levels)
    return list(dict.fromkeys(packs.in_order(manifest, levels)))


NO_OBJECT = by_hand(objects=[[trees.leaf(1, [(reference("n1"), b"rubbish")])]])
OF_ANOTHER_TREE = by_hand(objects=[[trees.leaf(2, [])]])
ABSENT = by_hand(tags=[[trees.leaf(2, [(b"a\0b\0" + reference("n1"), b"")])]])
MALFORMED = by_hand(objects=[[b"no node"]])
NO_MANIFEST = [trees.leaf(1, [])]

# The nodes under a root, of which the first has it, and a query of which a code is told.
DISHONEST = {
    "E1": (OF_ANOTHER_TREE, QUERY), "E2": (NO_OBJECT, QUERY), "E3": (ABSENT, 'node["a"];out;'), "E4": (NO_MANIFEST, QUERY),
}

# What `check` says of proofs of such nodes: the nodes of the proof, the one that has the root, and the query.
OF_PROOFS = {
    "E1": [(OF_ANOTHER_TREE[:1], OF_ANOTHER_TREE[0], QUERY), (MALFORMED[:2], MALFORMED[0], QUERY),
           (OF_ANOTHER_TREE[:2], OF_ANOTHER_TREE[0], QUERY)],
    "E2": [(NO_OBJECT[:2], NO_OBJECT[0], QUERY)],
    "E3": [(ABSENT[:3], ABSENT[0], 'node["a"];out;')],
    "E4": [([], NO_OBJECT[0], QUERY), (NO_MANIFEST, NO_MANIFEST[0], QUERY)],
}


class Room:
    """A folder with the four objects, their pack, and a query with its answer and its proof."""

    def __init__(self, folder):
        self.folder = folder
        self.objects = self.file("set.opl", "".join(f"{line}\n" for line in FOUR).encode())
        self.query, self.answer, self.proof = self.file("query", QUERY.encode()), folder / "answer", folder / "proof"
        self.pack = folder / "set.pack"
        self.root = run([PROGRAM, "prove", self.objects, self.query, self.answer, self.proof]).stdout.decode().strip()
        run([PROGRAM, "pack", self.objects, self.pack])

    def file(self, name, content):
        path = self.folder / name
        path.write_bytes(content)
        return path

    def check(self, *words, root=None, query=None, answer=None, proof=None):
        """What `check` says, with these in place of what is right."""
        return run([PROGRAM, "check", *words, root or self.root, query or self.query, answer or self.answer, proof or self.proof])

    def checked_nodes(self, nodes, first, query):
        """What `check` says of a proof that lists these nodes, under the root that the first one has."""
        files = {"query": self.file("asked", query.encode()), "proof": self.file("listed", trees.proof_of(nodes))}
        return self.check(root=digest(first).hex(), answer=self.file("none", b""), **files)

    def queried(self, *words, pack=None, root=None, query=QUERY):
        """What `query` says, of the pack with these bytes in place of the set's."""
        place = self.pack if pack is None else self.file("other.pack", pack)
        return run([PROGRAM, "query", *words, root or self.root, place, query])

    def changed(self, changes, sequence=0):
        return run([PROGRAM, "changes", self.objects, str(sequence), self.file("changes", changes)])


# ---- Each line, had from the program: the line, the command, and the outcome


def lines_of_words(room):
    none, bad = room.folder / "no-file", room.file("bad.opl", b"n1 x13.4\n")
    yield "bad root", "check", room.check(root="0" * 63)
    yield "bad form", "ask", run([PROGRAM, "ask", "--form", "yaml", QUERY])
    yield "bad edition", "publish", run([PROGRAM, "publish", room.objects, "--edition", "3"])
    yield "O9 line 1 byte 8", "publish", run([PROGRAM, "publish", bad])
    yield "no memory", "publish", run([PROGRAM, "publish", room.objects], b"", {"REFUSE_ALLOCATION": 1})
    yield "device", "publish", run([PROGRAM, "publish", none])
    yield "too large", "check", room.check("--max-size", "0")
    yield "no work", "check", room.check("--max-work", "0")
    yield "I5", "changes", room.changed(b"", 2**64 - 1)
    yield "I3 n5", "changes", room.changed(b"n5 x0 y0\nn5 dD\n")
    yield "I2 w10", "changes", without_way(room)


def without_way(room):
    """The change that deletes way 10, of a set without it."""
    node = room.file("node.opl", b"n1 x0 y0\n")
    return run([PROGRAM, "changes", node, "0", room.file("changes", b"w10 dD\n")])


def lines_of_texts(room):
    for line in LINES.values():
        outcome = run([PROGRAM, "ask", "nwr;out;"], line)
        yield outcome.stderr.decode().strip(), "ask", outcome
    for query in QUERIES.values():
        words = [room.file("asked", query), room.folder / "none-1", room.folder / "none-2"]
        outcome = run([PROGRAM, "prove", room.objects, *words])
        yield outcome.stderr.decode().strip(), "prove", outcome


def lines_of_packs(room):
    pack = room.pack.read_bytes()
    # The place of tree 1's top, in the table of the manifest, which stands first; and that tree's leaf.
    place = packs.HEADER + 4 + int.from_bytes(pack[packs.HEADER : packs.HEADER + 4], "big")
    leaf = int.from_bytes(pack[place + 2 : place + 8], "big")
    yield "not a pack", "query", room.queried(pack=b"n1 x0 y0")
    yield "a pack of another version", "query", room.queried(pack=pack[:5] + b"\2" + pack[6:])
    yield "a pack that is cut short", "query", room.queried(pack=pack[:-1])
    yield "bytes after the pack", "query", room.queried(pack=pack + b"\n")
    yield "a pack of another root", "query", room.queried(root="00" * 32)
    yield "no such node", "query", room.queried(pack=pack[: place + 1] + b"\1" + pack[place + 2 :])
    yield "other bytes than asked for", "query", room.queried(pack=pack[: leaf + 8] + b"?" + pack[leaf + 9 :])
    yield "too many bytes", "query", room.queried("--max-bytes", "1")
    yield "too much work", "query", room.queried("--max-work", "1")
    yield "the device failed", "query", run([PROGRAM, "query", room.root, room.folder / "no-file", QUERY])
    for code, (nodes, query) in DISHONEST.items():
        yield code, "query", room.queried(pack=packs.pack_of(nodes), root=digest(nodes[0]).hex(), query=query)


def lines_of_heads(room):
    """What `pack --add` refuses beside changes, and heads that are none."""
    pack, front = room.pack.read_bytes(), f"osm_mirror head 1\nroot {room.root}\nsequence 0\nmanifest 60 193\n"
    changes = room.file("tags.opl", b"n1 Ta=b x13.4 y52.5\n")
    add = lambda name, content: run([PROGRAM, "pack", "--add", changes, room.file(name, content)])
    yield "line 5 of the head is wrong", "query", room.queried(pack=front.encode())
    yield "a name that a head can't have", "pack", add("a set.pack", pack)
    yield "too many files", "pack", add("many.head", (front + "file 1 a\n" * 65535).encode())
    yield "no manifest", "pack", add("leaf.pack", packs.pack_of([trees.leaf(1, [])]))
    yield "no tree", "pack", add("no-tree.pack", packs.pack_of(by_hand(objects=[[trees.leaf(2, [])]], front=b"OSMM\2" + bytes(8))))
    yield "a node is missing", "pack", without_a_place(room, changes)


def without_a_place(room, changes):
    """What `pack --add` says of a pack in which the place of the last leaf of the objects' tree isn't told."""
    lines = [f"n{it} v1 dV c1 t i0 u T x1.{it} y1" for it in range(1, 400)]
    manifest, levels = trees.manifest_of(lines, 2)
    objects = levels[1]
    nodes = packs.in_order(manifest, list(levels.values()))
    pack, places = bytearray(packs.pack_of(nodes)), packs.places_of(nodes)
    top = places[digest(objects[1][0])]
    pack[top.at + top.length - 12 : top.at + top.length - 4] = b"\xff" * 8
    return run([PROGRAM, "pack", "--add", changes, room.file("hole.pack", bytes(pack))])


@contextmanager
def broken():
    """A mirror that breaks its connection off as soon as it has been asked."""
    with socket.create_server(("127.0.0.1", 0)) as listening:

        def serve():
            connection, _ = listening.accept()
            connection.recv(1 << 16)
            # What is left unsent is dropped, and the client is told that the connection was reset.
            connection.setsockopt(socket.SOL_SOCKET, socket.SO_LINGER, b"\1\0\0\0\0\0\0\0")
            connection.close()

        serving = threading.Thread(target=serve, daemon=True)
        serving.start()
        yield f"127.0.0.1:{listening.getsockname()[1]}"
        serving.join(SECONDS)


def lines_of_mirrors(room):
    answer, proof = room.answer.read_bytes(), room.proof.read_bytes()
    manifest = trees.manifest_of(FOUR, 2)[0]
    cases = [
        ("the mirror answers under another root", response(checked_body(answer, proof)), {"root": "00" * 32}),
        ("the mirror's proof is refused: C4", response(checked_body(answer, trees.proof_of([manifest]))), {}),
        ("the mirror closed the connection early", b"", {}),
        ("the mirror answered with status 400", response(b"", status=b"400 Bad Request"), {}),
        ("the mirror's response ..", response(bytes(39)), {}),
    ]
    for line, said, options in cases:
        with mirror(said) as place:
            yield line, "fetch", fetched(place, **options)
    with mirror(response(checked_body(answer, proof))) as place:
        yield "too much work", "fetch", fetched(place, "--max-work", "1")
    with broken() as place:
        yield "the mirror went silent", "fetch", fetched(place)
    with socket.create_server(("127.0.0.1", 0)) as listening:
        place = f"127.0.0.1:{listening.getsockname()[1]}"
    yield "the mirror can't be reached", "fetch", fetched(place)


REQUEST = b"GET /api/interpreter?data=node(1);out; HTTP/1.1\r\nConnection: close\r\n\r\n"


def served(room, *words, objects=None, refusing=None):
    """What `serve` prints after its first line, over one connection."""
    with server(objects or room.objects, *words, "--connections", 1, refusing=refusing) as running:
        told(running, [REQUEST])
        return running.ended()


def lines_of_servers(room):
    """Those after which a server goes on: here it ends by itself, after one connection."""
    yield "G1", "serve", served(room, refusing={"REFUSE_RECV": 1})
    yield "G2", "serve", served(room, refusing={"REFUSE_SEND": 1})
    # (over the same set, in the vectors)
    yield "G3", "serve", served(room, objects=set_file(b"F"), refusing={"REFUSE_ALLOCATION": refused_in_request(REQUEST) or 1})
    node = room.file("node.opl", b"n1 x0 y0\n")
    for line, objects, changes in [
        ("O9 line 1 byte 8", room.objects, b"n1 x13.4\n"),
        ("I2 w10", node, b"w10 dD\n"),
        ("I6", room.objects, b"n1 dD\n# root " + 64 * b"0" + b"\n"),
        ("device", room.objects, None),
    ]:
        with tempfile.TemporaryDirectory() as folder:
            file = Path(folder) / "1.opl"
            # (a folder in place of the file can be opened and not read)
            file.mkdir() if changes is None else file.write_bytes(changes)
            yield line, "serve", served(room, "--changes", folder, objects=objects)


def first_line(words):
    """The first line on standard error of a command that goes on."""
    process = subprocess.Popen([PROGRAM, *words], stdout=subprocess.DEVNULL, stderr=subprocess.PIPE)
    try:
        return process.stderr.readline().decode()
    finally:
        process.kill()
        process.communicate()


def lines_of_listeners(room):
    yield "serve", first_line(["serve", room.objects, "0"])
    yield "serve a pack", first_line(["serve", room.pack, "0"])
    yield "relay", first_line(["relay", room.root, "127.0.0.1:8080", "0"])


def verdicts(room):
    """Each reason for a no, as `check` prints it."""
    short, swapped = room.file("short", room.proof.read_bytes()[:-1]), room.file("swapped", swapped_proof(room.proof.read_bytes()))
    _, levels = trees.manifest_of(FOUR, 2)
    added = trees.proof_of([trees.manifest_of(FOUR, 2)[0], levels[1][-1][0], levels[2][-1][0]])
    yield room.check(query=room.file("asked", b"node(1)"))
    yield room.check(proof=short)
    yield room.check(proof=swapped)
    yield room.checked_nodes([], NO_OBJECT[0], QUERY)
    yield room.checked_nodes(NO_MANIFEST, NO_MANIFEST[0], QUERY)
    yield room.checked_nodes(OF_ANOTHER_TREE[:2], OF_ANOTHER_TREE[0], QUERY)
    yield room.checked_nodes(NO_OBJECT[:2], NO_OBJECT[0], QUERY)
    yield room.check(proof=room.file("added", added))
    yield room.check(answer=room.file("other", b"n1\n"))


def swapped_proof(proof):
    """The proof of two nodes with these in the other order."""
    size = int.from_bytes(proof[9:13], "big")
    return proof[:9] + proof[13 + size :] + proof[9 : 13 + size]


# ---- The page


def pattern_of(line):
    """What the program prints for a line of the page, in which roots are shortened and ports are examples."""
    pattern = re.escape(line)
    for short, stands_for in SHORTENED.items():
        pattern = pattern.replace(re.escape(short), stands_for)
    return pattern.removesuffix(re.escape(" ..")) + (" .*" if line.endswith(" ..") else "")


def check_lines(tally, page, had, going):
    """Each line of the table, with its status; and each line that is had stands in the table."""
    rows = [row for row in page.table_with("Line on standard error", "Status")[1:] if row[0].startswith("`")]
    met = 0
    for cell, when, status in rows:
        for line in [it for it in QUOTED.findall(cell) if it not in UNREACHED]:
            if line.startswith("osm_mirror listens"):
                continue
            # ("no memory" for a change file takes a refused allocation, each of which is tried in changes_test.py)
            if status == "goes on" and line == "no memory":
                continue
            outcomes = [it[2] for it in (going if status == "goes on" else had) if it[0] == line]
            tally.check(f"{line} was had: {when}", outcomes != [])
            met += 1
            for outcome in outcomes:
                is_told = re.fullmatch(pattern_of(line), outcome.stderr.decode().removesuffix("\n")) is not None
                wanted = 0 if status == "goes on" else int(status)
                tally.check(f"{line}: {status}", is_told and outcome.stdout == b"" and outcome.status == wanted, outcome)
    check_found(tally, "lines that can be had", met, 40)
    whole = "\n".join(row[0] for row in rows)
    for line, _, _ in had + going:
        known = f"`{line}`" in whole or re.match(rf"{CODE}\b", line)
        tally.check(f"{line} stands in the table", known)


def check_listeners(tally, page, room):
    lines = [line for row in page.table_with("Line on standard error", "Status")[1:] for line in QUOTED.findall(row[0])
             if line.startswith("osm_mirror listens")]
    got = dict(lines_of_listeners(room))
    for line in lines:
        command = next((it for part, it in LISTENERS.items() if part in line), "serve")
        holds = re.fullmatch(pattern_of(line), got[command].removesuffix("\n")) is not None and room.root in got[command]
        tally.check(f"first line of {command}", holds and room.root.startswith("e669"), got[command])
    check_found(tally, "first lines", len(lines), len(LISTENERS))


def check_plain_statuses(tally, page, room):
    """The rows without a line of the program's own: yes, no, and a command line that isn't one."""
    statuses = {row[1]: row[2] for row in page.table_with("Line on standard error", "Status")[1:] if "`" not in row[0] or "clap" in row[0]}
    yes, no, words = room.check(), room.check(answer=room.file("other", b"")), run([PROGRAM])
    for part, outcome in (("yes", yes), ("no", no), ("command line", words)):
        status = next((it for when, it in statuses.items() if re.search(rf"\b{part}\b", when)), None)
        tally.check(f"status of {part}", status is not None and outcome.status == int(status), statuses, outcome)
        tally.check(f"standard error of {part}", (outcome.stderr == b"") == (part != "command line"), outcome)


def response_of(query, file, *words):
    """What a server over this file answers to a query."""
    with server(file, *words, "--connections", 1) as running:
        return told(running, [f"GET /api/interpreter?data={quote(query)} HTTP/1.1\r\n\r\n".encode()])


def check_responses(tally, page, room):
    """The rows of HTTP that take a budget or a pack: too much work, and nodes that aren't those of a set of objects."""
    rows = [row for _, row in page.rows_where(lambda heads, row: len(row) == 3 and re.match(r"50[03] `", row[1]) is not None)]
    for name, answer, afterwards in rows:
        status, text = re.match(r"(\d+) `([^`]*)`", answer).groups()
        got = [response_of(QUERY, room.objects, "--max-work", 0)] if text == "too much work" else []
        if text == "device":
            for nodes, query in DISHONEST.values():
                got.append(response_of(query, room.file("dishonest.pack", packs.pack_of(nodes))))
        for response_told in got:
            head, _, body = response_told.partition(b"\r\n\r\n")
            closes = b"\r\nConnection: close" in head
            holds = head.startswith(f"HTTP/1.1 {status} ".encode()) and body == f"{text}\n".encode()
            tally.check(f"{answer}: {name}", holds and closes == ("closed" in afterwards), response_told)
        tally.check(f"{answer} was had", got != [], name)
    check_found(tally, "responses that take a budget or a pack", len(rows), 2)


# What follows a code, by what the index says of it.
FOLLOWS = {
    "": "", "line, byte": r" line \d+ byte \d+", "byte": r"(?: byte)? \d+", "the object": r" [nwr]-?\d+",
    "the query's code and byte": r" Q\d+ \d+",
}


def check_index(tally, page, room, had):
    """The columns `Printed with` and `Program` of the index: which commands print a code, and what stands in its place."""
    table = page.table_with("Code", "Means", "Program")
    follows, program = column(table[0], "Printed with"), column(table[0], "Program")
    printed = {}
    for line, command, outcome in had:
        printed.setdefault(line, []).append((command, outcome))
    met = 0
    for row in table[1:]:
        code, cell = row[0].strip("`"), row[program]
        lines = [line for line in printed if line == code or re.match(rf"{re.escape(code)}\b", line)]
        commands = {command for line in lines for command, _ in printed[line]}
        by = re.match(r"by `(\w+)`", cell)
        if by is not None:
            tally.check(f"{code} is printed by {by[1]} alone", commands == {by[1]}, commands)
        elif cell.startswith("yes"):
            tally.check(f"{code} is printed", commands != set() or code in UNREACHED, cell)
        else:
            tally.check(f"{code} isn't printed", cell.startswith("no") and commands == set(), cell, commands)
        for line in lines:
            met += 1
            known = re.fullmatch(re.escape(code) + FOLLOWS.get(row[follows], "?"), line) is not None
            tally.check(f"{line}: {row[follows]}", known, row)
    check_found(tally, "codes that are printed", met, 48)
    check_in_place(tally, {row[0]: row[program] for row in table[1:]}, room)


def check_in_place(tally, cells, room):
    """What the page says is printed in place of a code is printed of such a line, file, query or proof."""
    for code, faults in IN_PLACE.items():
        places = dict(re.findall(r"in a (line|file|query) ([OQ]\d+)", cells[code]))
        tally.check(f"{code}: where it is met", set(places) == set(faults), cells[code])
        for kind, text in faults.items():
            outcome = run([PROGRAM, "ask", text if kind == "query" else "nwr;out;"], b"" if kind == "query" else text)
            tally.check(f"{code} in a {kind}", outcome.stderr.decode().startswith(f"{places.get(kind)} "), outcome)
    for code, proofs in OF_PROOFS.items():
        wanted = set(re.findall(r"C\d", cells[code]))
        got = {room.checked_nodes(*it).stdout.decode().strip().removeprefix("no ") for it in proofs}
        tally.check(f"{code} of a proof", got == wanted, got, wanted)
    short, swapped = room.file("short", b"OSMP"), room.file("swapped", swapped_proof(room.proof.read_bytes()))
    for code, proof in (("P1", short), ("P2", swapped)):
        outcome = room.check(proof=proof)
        tally.check(f"{code}: {cells[code]}", outcome.stdout.decode() == f"no {cells[code].removeprefix('no; ')}\n", outcome)
    outcome = run([PROGRAM, "publish", room.folder])
    tally.check(f"O14: {cells['O14']}", outcome.stderr.decode() == f"{cells['O14'].removeprefix('no; ').strip('`')}\n", outcome)
    outcome = without_way(room)
    tally.check(f"D4: {cells['D4']}", re.fullmatch(r"I\d [nwr]\d+\n", outcome.stderr.decode()) is not None, outcome)


def main():
    tally = Tally()
    page = Page(PAGE.read_text(encoding="utf-8"))
    with tempfile.TemporaryDirectory() as folder:
        room = Room(Path(folder))
        tally.check("root of the four objects", room.root == trees.root_of(FOUR, 2), room.root)
        had = [*lines_of_words(room), *lines_of_texts(room), *lines_of_packs(room), *lines_of_heads(room), *lines_of_mirrors(room)]
        going = list(lines_of_servers(room))
        check_lines(tally, page, had, going)
        check_listeners(tally, page, room)
        check_plain_statuses(tally, page, room)
        check_responses(tally, page, room)
        noes = [(it.stdout.decode().strip().removeprefix("no "), "check", it) for it in verdicts(room)]
        check_index(tally, page, room, had + going + noes)
    tally.end()


if __name__ == "__main__":
    main()
