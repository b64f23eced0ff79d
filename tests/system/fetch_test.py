"""`fetch` before honest mirrors, and before mirrors that lie, break off, never end, or answer something else."""

import gzip
import json
import socket
import tempfile
import threading
import time
import xml.etree.ElementTree as ElementTree
from contextlib import contextmanager
from pathlib import Path

from runs import PROGRAM, TOP, Outcome, Tally, each_refused, run
from serve_test import server

OBJECTS = TOP / "examples/four-objects.opl"
QUERY = "node(1);out;"
ROOT = "e66900236b879ef283a337e2d57ae34c0a3a919610d5dc475f092354538f6732"
OTHER_ROOT = "00" * 32
ANSWER = b"n1 Thighway=crossing x13.4 y52.5\n"
JSON = (
    b'{"version":0.6,"generator":"osm_mirror","elements":[\n'
    b'{"type":"node","id":1,"lat":52.5,"lon":13.4,"tags":{"highway":"crossing"}}\n]}\n'
)
XML = (
    b'<?xml version="1.0" encoding="UTF-8"?>\n<osm version="0.6" generator="osm_mirror">\n'
    b'<node id="1" lat="52.5" lon="13.4"><tag k="highway" v="crossing"/></node>\n</osm>\n'
)


@contextmanager
def mirror(*pieces, pause=0.0, asked=None):
    """A mirror that says these pieces to one client, whatever it asks; its place is given. What it is asked is put at the
    end of `asked`."""
    with socket.create_server(("127.0.0.1", 0)) as listening:

        def serve():
            try:
                connection, _ = listening.accept()
                with connection:
                    request = connection.recv(1 << 16)
                    if asked is not None:
                        asked.append(request)
                    for piece in pieces:
                        connection.sendall(piece)
                        time.sleep(pause)
            except OSError:
                # The client has had enough, or never came.
                pass

        serving = threading.Thread(target=serve)
        serving.start()
        try:
            yield f"127.0.0.1:{listening.getsockname()[1]}"
        finally:
            # A client that never came: it is woken.
            try:
                socket.create_connection(listening.getsockname(), timeout=1).close()
            except OSError:
                pass
            serving.join()


def fetched(place, *options, root=ROOT, query=QUERY):
    return run([PROGRAM, "fetch", *options, root, place, query])


def response(body, *fields, status=b"200 OK"):
    lines = [b"HTTP/1.1 " + status, *fields, b"Content-Length: %d" % len(body), b"Connection: close", b"", body]
    return b"\r\n".join(lines)


def checked_body(answer, proof, root=ROOT):
    return bytes.fromhex(root) + len(answer).to_bytes(8, "big") + answer + proof


def proof_of(room, query=QUERY):
    """The proof of the answer."""
    (room / "query").write_text(query, encoding="utf-8")
    outcome = run([PROGRAM, "prove", OBJECTS, room / "query", room / "answer", room / "proof"])
    assert outcome == Outcome(ROOT.encode() + b"\n", b"", 0), outcome
    return (room / "proof").read_bytes()


def refused(words, status):
    return Outcome(b"", words + b"\n", status)


def check_honest(tally):
    """A real mirror, in each form; another root, a query that doesn't read."""
    with server(OBJECTS) as running:
        place = f"127.0.0.1:{running.port}"
        for form, want in [("opl", ANSWER), ("json", JSON), ("xml", XML)]:
            outcome = fetched(place, "--form", form)
            tally.check(f"--form {form}", outcome == Outcome(want, b"", 0), outcome)
        outcome = fetched(f"localhost:{running.port}")
        tally.check("by name", outcome == Outcome(ANSWER, b"", 0), outcome)
        outcome = fetched(place, query="[out:json];node(1);out;")
        tally.check("what the settings ask for doesn't matter", outcome == Outcome(ANSWER, b"", 0), outcome)
        outcome = fetched(place, root=OTHER_ROOT)
        tally.check("another root", outcome == refused(b"the mirror answers under another root", 1), outcome)
        outcome = fetched(place, "--max-size", "40")
        tally.check("too large", outcome == refused(b"the mirror's response is too long", 3), outcome)
    read = json.loads(JSON)["elements"]
    tally.check("JSON as it is read", read == [{"type": "node", "id": 1, "lat": 52.5, "lon": 13.4, "tags": {"highway": "crossing"}}])
    tally.check("XML as it is read", ElementTree.fromstring(XML).find("node/tag").attrib == {"k": "highway", "v": "crossing"})


def check_unasked(tally):
    """A query that doesn't read is refused, and no mirror is asked. Where there is none, that is told."""
    asked = []
    with mirror(b"HTTP/1.1 200 OK\r\n\r\n", asked=asked) as place:
        outcome = fetched(place, query="node(1)out;")
    tally.check("a query that doesn't read", outcome == refused(b"Q5 byte 7", 2), outcome)
    tally.check("no mirror is asked then", asked in ([], [b""]), asked)
    with socket.create_server(("127.0.0.1", 0)) as listening:
        place = f"127.0.0.1:{listening.getsockname()[1]}"
    for name in [place, "127.0.0.1", "no-such-host.invalid:80", "two words:80", ""]:
        outcome = fetched(name)
        tally.check(f"no mirror at {name!r}", outcome == refused(b"the mirror can't be reached", 3), outcome)


def check_request(tally, proof):
    """The request, byte for byte."""
    asked = []
    with mirror(response(checked_body(ANSWER, proof)), asked=asked) as place:
        outcome = fetched(place)
    want = (
        b"POST /api/checked HTTP/1.1\r\nHost: %s\r\nConnection: close\r\nContent-Type: text/plain; charset=utf-8\r\n"
        b"Content-Length: 12\r\n\r\nnode(1);out;" % place.encode()
    )
    tally.check("the request", asked == [want], asked)
    tally.check("its answer", outcome == Outcome(ANSWER, b"", 0), outcome)


def check_lies(tally, proof):
    """What a mirror says as the answer doesn't matter: the proof alone shows it. A proof that isn't that of the query shows
    nothing."""
    wrong = ANSWER.replace(b"crossing", b"crossinG")
    for name, body in [("a wrong answer", checked_body(wrong, proof)), ("no answer", checked_body(b"", proof))]:
        with mirror(response(body)) as place:
            outcome = fetched(place)
        tally.check(name, outcome == Outcome(ANSWER, b"", 0), outcome)
    with mirror(response(checked_body(ANSWER, proof)) + b"HTTP/1.1 200 OK\r\n") as place:
        outcome = fetched(place)
    tally.check("bytes after the response", outcome == Outcome(ANSWER, b"", 0), outcome)
    with mirror(response(checked_body(ANSWER, proof, OTHER_ROOT))) as place:
        outcome = fetched(place)
    tally.check("another root is named, and the proof is right", outcome == Outcome(ANSWER, b"", 0), outcome)
    with tempfile.TemporaryDirectory() as room:
        other = proof_of(Path(room), "node[highway=crossing];out;")
        one_way = proof_of(Path(room), "way(10);out;")
    # (the sets are so small that all objects lie in one node of the tree of objects)
    tally.check("the proof of another query that needs the same nodes", one_way == proof)
    for name, spoiled, code in [
        ("no proof", b"", b"C2"),
        ("a proof cut", proof[:-1], b"C2"),
        ("a proof and a byte", proof + b"\0", b"C2"),
        ("the proof of another query", other, b"C8"),
    ]:
        with mirror(response(checked_body(ANSWER, spoiled))) as place:
            outcome = fetched(place)
        tally.check(name, outcome == refused(b"the mirror's proof is refused: " + code, 1), outcome)
        with mirror(response(checked_body(ANSWER, spoiled, OTHER_ROOT))) as place:
            outcome = fetched(place)
        tally.check(f"{name}, another root", outcome == refused(b"the mirror answers under another root", 1), outcome)


def check_responses(tally, proof):
    """Responses that are none, that break off, that point elsewhere, that are packed."""
    right = checked_body(ANSWER, proof)
    root = bytes.fromhex(ROOT)
    for name, said, words in [
        ("39 bytes", response(root + bytes(7)), b"the mirror's response has another form"),
        ("an answer of 2^64 - 1 bytes", response(root + b"\xff" * 8), b"the mirror's response has another form"),
        ("an answer of a byte more", response(root + (9).to_bytes(8, "big") + b"8 bytes."), b"the mirror's response has another form"),
        ("a body that breaks off", response(right)[:-1], b"the mirror closed the connection early"),
        ("a head that breaks off", b"HTTP/1.1 200 OK\r\nContent-Le", b"the mirror closed the connection early"),
        ("nothing", b"", b"the mirror closed the connection early"),
        ("another place", response(b"", b"Location: file:///etc/passwd", status=b"302 Found"), b"the mirror answered with status 302"),
        ("a refusal", response(b"\x1b]0;title\x07\x9bred", status=b"400 Bad"), b"the mirror answered with status 400"),
        ("packed", response(gzip.compress(right), b"Content-Encoding: gzip"), b"the mirror's response doesn't say how long it is"),
        ("in chunks", b"HTTP/1.1 200 OK\r\nTransfer-Encoding: chunked\r\n\r\n0\r\n\r\n", b"the mirror's response doesn't say how long it is"),
        ("no length", b"HTTP/1.1 200 OK\r\n\r\n" + right, b"the mirror's response doesn't say how long it is"),
        ("two lengths", response(right, b"Content-Length: %d" % len(right)), b"the mirror's response doesn't say how long it is"),
        ("no status", b"hello\r\n\r\n", b"the mirror's response has no valid head"),
        ("a head without an end", b"HTTP/1.1 200 OK\r\n" + b"X: y\r\n" * 2000, b"the mirror's response has no valid head"),
    ]:
        with mirror(said) as place:
            outcome = fetched(place)
        tally.check(name, outcome == refused(words, 3), outcome)
    pieces = response(right)
    with mirror(*(pieces[at : at + 1] for at in range(len(pieces)))) as place:
        outcome = fetched(place)
    tally.check("byte by byte", outcome == Outcome(ANSWER, b"", 0), outcome)


def check_limits(tally):
    """What is too large isn't read, and what doesn't come in time is given up."""
    announced = b"HTTP/1.1 200 OK\r\nContent-Length: 3000000\r\n\r\n"
    with mirror(announced, b"x" * 3_000_000) as place:
        outcome = fetched(place, "--max-size", "1000000")
    tally.check("too large", outcome == refused(b"the mirror's response is too long", 3), outcome)
    begun = time.monotonic()
    with mirror(announced, *[b"\0"] * 400, pause=0.05) as place:
        outcome = fetched(place)
    took = time.monotonic() - begun
    tally.check("too slow", outcome == refused(b"the mirror went silent", 3) and 9 < took < 25, took, outcome)


def check_memory(tally):
    """Each allocation refused in turn: out of memory, or the whole answer, and nothing else."""
    with server(OBJECTS) as running:
        words = [PROGRAM, "fetch", "--form", "json", ROOT, f"127.0.0.1:{running.port}", QUERY]
        tries = 0
        for number, outcome in each_refused(words, b"", "REFUSE_ALLOCATION"):
            tries = number
            holds = outcome in (Outcome(b"", b"no memory\n", 3), Outcome(JSON, b"", 0))
            tally.check(f"allocation {number} refused", holds or outcome == refused(b"the mirror can't be reached", 3), outcome)
        tally.check("some allocations were refused", tries > 10, tries)


def main():
    tally = Tally()
    check_honest(tally)
    check_unasked(tally)
    with tempfile.TemporaryDirectory() as room:
        proof = proof_of(Path(room))
    check_request(tally, proof)
    check_lies(tally, proof)
    check_responses(tally, proof)
    check_limits(tally)
    check_memory(tally)
    tally.end()


if __name__ == "__main__":
    main()
