"""`serve` of a pack: the vectors' connections get the vectors' answers; damaged, cut, replaced and vanishing packs never make
another answer, and the mirror stays; how much memory it takes; what it refuses."""

import os
import signal
import struct
import subprocess
import sys
import tempfile
from contextlib import contextmanager
from pathlib import Path
from urllib.parse import quote

from lines_rows_test import rows, set_file
from runs import PROGRAM, TOP, Outcome, Tally, run
from serve_test import NO_MEMORY, root_of, server, told

MIB = 1 << 20

DEVICE = (
    b"HTTP/1.1 500 Internal Server Error\r\nContent-Type: text/plain; charset=utf-8\r\n"
    b"Content-Length: 7\r\n\r\ndevice\n"
)


def packed(file, place, *words):
    """Packs a file, and gives the path of the pack."""
    subprocess.run([PROGRAM, "pack", file, place, *words], stdout=subprocess.DEVNULL, check=True)
    return place


def asked(query, path="/api/checked"):
    return f"GET {path}?data={quote(query)} HTTP/1.1\r\nHost: h\r\n\r\n".encode()


def answer_to(running, request):
    """What one request gets on a connection of its own."""
    return told(running, [request])


@contextmanager
def both(file, pack, *words):
    """A server over the text, and one over its pack."""
    with server(file, *words) as text, server(pack, *words) as packed_one:
        yield text, packed_one


def check_vectors(tally, folder):
    """Each connection of the vectors, in one piece and cut, gets the vectors' answers."""
    listed = [[row[0], row[1], *map(bytes.fromhex, (row[2].decode(), row[3].decode()))] for row in rows("requests.tsv")]
    tally.check("all connections are there", len(listed) == 138, len(listed))
    for name, edition in sorted({(row[0], row[1]) for row in listed}):
        pack = packed(set_file(name), folder / f"{name.decode()}-{edition.decode()}.pack", "--edition", edition.decode())
        of_set = [row[2:] for row in listed if row[:2] == [name, edition]]
        with server(pack, "--connections", 2 * len(of_set)) as running:
            line = f"osm_mirror listens on 127.0.0.1:{running.port}, over a pack, root {root_of(name, edition)}\n"
            tally.check(f"{name} {edition} begins", running.line == line.encode(), running.line)
            for given, want in of_set:
                for cuts in [(), (1, len(given) // 2)]:
                    places = [0, *cuts, len(given)]
                    got = told(running, [given[a:b] for a, b in zip(places, places[1:])])
                    tally.check(f"{name} {edition} {given[:60]} {cuts}", got == want, got[:300])
            outcome = running.ended()
            tally.check(f"{name} {edition} ends", outcome == Outcome(b"", b"", 0), outcome)


def check_meanings(tally, folder):
    """Each query of the vectors gets the vectors' answer, and the proof that a mirror in memory gives."""
    listed = rows("meanings.tsv")
    for name in sorted({row[0] for row in listed}):
        pack = packed(set_file(name), folder / f"meanings-{name.decode()}.pack")
        with both(set_file(name), pack) as (text, packed_one):
            for _, query, answer in (row for row in listed if row[0] == name):
                request = asked(query.decode())
                want, got = answer_to(text, request), answer_to(packed_one, request)
                tally.check(f"{name} {query}", got == want and got.startswith(b"HTTP/1.1 200 OK\r\n") and answer in got, got[:200])
    budget = ["--max-work", "1000"]
    pack = folder / "meanings-town.pack"
    with both(set_file(b"town"), pack, *budget) as (text, packed_one):
        for _, query, _ in (row for row in listed if row[0] == b"town"):
            request = asked(query.decode(), "/api/interpreter")
            want, got = answer_to(text, request), answer_to(packed_one, request)
            tally.check(f"budget, {query}", got == want, got[:200])
        request = asked("nwr;out;", "/api/interpreter")
        tally.check("budget", answer_to(packed_one, request).startswith(b"HTTP/1.1 503 "), answer_to(packed_one, request))


# A pack's header, in bytes.
HEADER_LEN = 60

QUERIES = ["node(1);out;", "node;out;", "way[highway];>;out meta;", "node(50,5,60,20);out ids;"]


# No other query of these tests needs a node that this one needs.
APART = "way(10);<;out ids;"


def check_damage(tally, folder):
    """A bit of a pack that is turned while it is served makes no other answer: the same bytes, or `device`; and once the pack
    is well again the mirror answers as before."""
    pack = packed(set_file(b"F"), folder / "damaged.pack")
    good = pack.read_bytes()
    with server(pack) as running, pack.open("r+b", buffering=0) as file:
        requests = [asked(query) for query in QUERIES]
        wanted = [answer_to(running, request) for request in requests]
        tally.check("as it is", all(it.startswith(b"HTTP/1.1 200 OK\r\n") for it in wanted), wanted)

        def damage(change, place):
            """The file is changed at this place, once the mirror keeps nothing of it: it has failed a query."""
            file.truncate(0)
            tally.check("an empty file", answer_to(running, asked(APART)) == DEVICE)
            file.seek(0)
            file.write(good)
            change(place)

        def mend():
            file.seek(0)
            file.write(good)

        def turn(at):
            file.seek(at)
            file.write(bytes([good[at] ^ (1 << at % 8)]))

        refused = 0
        for at in range(0, len(good), 7):
            damage(turn, at)
            for query, request, want in zip(QUERIES, requests, wanted):
                got = answer_to(running, request)
                refused += got == DEVICE
                tally.check(f"byte {at}, {query}", got in (want, DEVICE), got[:200])
            mend()
            again = [answer_to(running, request) for request in requests]
            tally.check(f"byte {at}, well again", all(got in (want, DEVICE) for got, want in zip(again, wanted)), again)
            again = [answer_to(running, request) for request in requests]
            tally.check(f"byte {at}, well again for good", again == wanted, again)
        tally.check("bits that matter", refused > len(good) // 14, refused)
        for length in range(0, len(good), 11):
            damage(file.truncate, length)
            for query, request, want in zip(QUERIES, requests, wanted):
                got = answer_to(running, request)
                # The header isn't read again, and a node that is there is as good as in a whole file.
                tally.check(f"cut at {length}, {query}", got == DEVICE or (got == want and length > HEADER_LEN), got[:200])
            mend()
        again = [answer_to(running, request) for request in requests]
        tally.check("well again", again == wanted, again)
        root = asked("", "/api/root").replace(b"?data=", b"")
        file.truncate(0)
        tally.check("the root is known", answer_to(running, root).endswith(f"{root_of(b'F', b'2')}\n".encode()))
        bad = asked("node(;out;")
        tally.check("a query that doesn't read", b" 400 " in answer_to(running, bad).split(b"\r\n")[0], answer_to(running, bad))
        kept = [answer_to(running, request) for request in requests]
        tally.check("what is kept is answered from an empty file", kept == wanted, kept)
        tally.check("more isn't", answer_to(running, asked(APART)) == DEVICE)
        kept = [answer_to(running, request) for request in requests]
        tally.check("and nothing is kept then", kept == [DEVICE] * len(requests), kept)


def check_other_pack(tally, folder):
    """A pack that is replaced by rename is served on as it was; one that is overwritten with another set's gives `device`."""
    pack = packed(set_file(b"F"), folder / "replaced.pack")
    other = packed(set_file(b"town"), folder / "other.pack")
    request = asked("node;out;")
    with server(pack) as running:
        want = answer_to(running, request)
        os.replace(packed(set_file(b"town"), folder / "new.pack"), pack)
        tally.check("renamed over", answer_to(running, request) == want)
    pack = packed(set_file(b"F"), folder / "overwritten.pack")
    with server(pack) as running:
        pack.write_bytes(other.read_bytes())
        tally.check("overwritten", answer_to(running, request) == DEVICE, answer_to(running, request)[:200])


def check_words(tally, folder):
    """What can't be served as a pack is told, and a text is served as ever."""
    pack = packed(set_file(b"F"), folder / "words.pack")
    good = pack.read_bytes()
    place = folder / "bad.pack"
    for name, text, line, status in [
        ("cut in the header", good[:59], b"a pack that is cut short\n", 2),
        ("cut in the last record", good[:-1], b"a pack that is cut short\n", 2),
        ("bytes after it", good + b"\0", b"bytes after the pack\n", 2),
        ("another version", good[:5] + b"\2" + good[6:], b"a pack of another version\n", 2),
        ("three bytes of it", good[:3], b"O1 line 1 byte 0\n", 2),
    ]:
        place.write_bytes(text)
        outcome = run([PROGRAM, "serve", place, "0"])
        tally.check(name, outcome == Outcome(b"", line, status), outcome)
    outcome = run([PROGRAM, "serve", pack, "0", "--changes", folder])
    told_line = outcome.stderr.split(b"\n")[0]
    wanted = f"error: invalid value '{folder}' for '--changes <DIR>': a pack takes no changes".encode()
    tally.check("changes", outcome.status == 2 and outcome.stdout == b"" and told_line.startswith(wanted), outcome)
    # A unit for systemd can only leave the word empty.
    with server(pack, "--changes", "") as running:
        tally.check("an empty folder of changes", b", over a pack, " in running.line, running.line)
    outcome = run([PROGRAM, "serve", folder / "none.pack", "0"])
    tally.check("no file", outcome == Outcome(b"", b"device\n", 3), outcome)
    # A pipe is read once, as a text.
    pipe = folder / "pipe"
    os.mkfifo(pipe)
    feeder = subprocess.Popen(["sh", "-c", 'cat -- "$1" >"$2"', "sh", set_file(b"F"), pipe])
    with server(pipe) as running:
        tally.check("a pipe", b", over 4 objects, " in running.line, running.line)
    feeder.wait()


def check_memory(tally, folder):
    """A mirror over a pack of 23 MB of OPL holds little, whatever is asked one after the other, and gives what `prove` gives."""
    extract = folder / "extract.opl"
    with extract.open("wb") as into:
        subprocess.run([sys.executable, TOP / "bench/make_extract.py", "--share", "0.2"], stdout=into, check=True)
    pack = packed(extract, folder / "extract.pack")
    with server(pack) as running:
        begun = running.peak_kib()
        tally.check("memory at first", begun < 16 * 1024, begun)
        for number in range(1, 400):
            got = answer_to(running, asked(f"node({number});out;", "/api/interpreter"))
            tally.check(f"node {number}", got.startswith(b"HTTP/1.1 200 OK\r\n"), got[:200])
        peak = running.peak_kib()
        tally.check("memory after 400 queries", peak < 24 * 1024, begun, peak)
        asking, answer, proof = folder / "query", folder / "answer", folder / "proof"
        query = "nwr[highway=yes1];out ids;"
        asking.write_text(query, encoding="ascii")
        subprocess.run([PROGRAM, "prove", extract, asking, answer, proof], stdout=subprocess.DEVNULL, check=True)
        body = answer_to(running, asked(query)).partition(b"\r\n\r\n")[2]
        length = struct.unpack(">Q", body[32:40])[0]
        same = body[40 : 40 + length] == answer.read_bytes() and body[40 + length :] == proof.read_bytes()
        tally.check("as prove", same and length > 0, length)
        os.kill(running.process.pid, signal.SIGKILL)
    tally.check("the pack after a kill", run([PROGRAM, "serve", pack, "0", "--connections", "0"]).status == 0)


def check_refused_memory(tally, folder):
    """Each allocation refused in turn: the answer, or that memory ran out, and never another answer."""
    pack = packed(set_file(b"F"), folder / "memory.pack")
    request = asked("node;out;")
    with server(pack) as running:
        want = answer_to(running, request)
    ended = 0
    for number in range(1, 2000):
        with server(pack, "--connections", "1", refusing={"REFUSE_ALLOCATION": number}) as running:
            if running.port is None:
                continue
            got = answer_to(running, request)
            tally.check(f"allocation {number}", got in (want, NO_MEMORY, b""), got[:200])
            ended = ended + 1 if got == want else 0
        # Where the last allocations are past those of the request, nothing is refused any more.
        if ended == 30:
            return
    tally.check("the allocations end", False)


def main():
    tally = Tally()
    with tempfile.TemporaryDirectory() as room:
        folder = Path(room)
        check_vectors(tally, folder)
        check_meanings(tally, folder)
        check_damage(tally, folder)
        check_other_pack(tally, folder)
        check_words(tally, folder)
        check_memory(tally, folder)
        check_refused_memory(tally, folder)
    tally.end()


if __name__ == "__main__":
    main()
