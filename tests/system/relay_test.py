"""`relay` between clients of Overpass and mirrors: honest ones, and ones that lie, break off, fall silent or are at another
root. What a client gets with status 200 is the document that `ask` makes of the same set, and nothing else ever is.

curl is tried too, where it is installed; the programs that people use are those of clients_test.py.
"""

import http.client
import os
import shutil
import socket
import subprocess
import tempfile
import threading
import time
import urllib.error
import urllib.parse
import urllib.request
from concurrent.futures import ThreadPoolExecutor
from contextlib import contextmanager
from pathlib import Path

from fetch_test import ANSWER, JSON, OBJECTS, OTHER_ROOT, QUERY, ROOT, XML, checked_body, mirror, proof_of, response
from runs import PROGRAM, SECONDS, Outcome, Tally, built_library, run
from serve_test import all_of, server

# How many changes are published while clients ask.
PUBLICATIONS = 8

STATUS = b"Connected as: 0\nCurrent time: 1970-01-01T00:00:00Z\nAnnounced endpoint: none\nRate limit: 1\n1 slots available now.\nCurrently running queries (pid, space limit, time limit, start time):\n"


class Relay:
    """A relay that runs, and the line that it began with."""

    def __init__(self, root, place, *words, refusing=None):
        command = [PROGRAM, "relay", *words, root, place, "0"]
        environment = dict(os.environ)
        if refusing is not None:
            environment |= {"LD_PRELOAD": str(built_library())} | {name: str(value) for name, value in refusing.items()}
        self.process = subprocess.Popen(command, bufsize=0, stdout=subprocess.PIPE, stderr=subprocess.PIPE, env=environment)
        self.line = self.process.stderr.readline()
        begun = self.line.startswith(b"osm_mirror listens on 127.0.0.1:")
        self.port = int(self.line.split(b",")[0].split(b":")[1]) if begun else None
        self.site = f"http://127.0.0.1:{self.port}"

    def connect(self):
        return socket.create_connection(("127.0.0.1", self.port), timeout=SECONDS)

    def ended(self):
        stdout, stderr = self.process.communicate(timeout=SECONDS)
        return Outcome(stdout, stderr, self.process.returncode)


@contextmanager
def relay(place, *words, root=ROOT, refusing=None):
    running = Relay(root, place, *words, refusing=refusing)
    try:
        yield running
    finally:
        running.process.kill()
        running.process.communicate()


def asked(site, query, path="/api/interpreter", method="POST", seconds=SECONDS):
    """The status, the fields and the body of the answer to a query, as a client gets it."""
    if method == "GET":
        request = urllib.request.Request(f"{site}{path}?{urllib.parse.urlencode({'data': query})}")
    else:
        request = urllib.request.Request(f"{site}{path}", data=query.encode())
    try:
        with urllib.request.urlopen(request, timeout=seconds) as got:
            return got.status, dict(got.headers), got.read()
    except urllib.error.HTTPError as error:
        with error:
            return error.code, dict(error.headers), error.read()


def error_of(body):
    """The text of an error, where Overpass' clients look for it."""
    text = body.decode()
    return text.split('<p><strong style="color:#FF0000">Error</strong>: ')[1].split(" </p>")[0]


def root_of(port):
    """The root that a mirror says it has."""
    with urllib.request.urlopen(f"http://127.0.0.1:{port}/api/root", timeout=SECONDS) as got:
        return got.read().decode().strip()


def raw(running, request):
    with running.connect() as connection:
        connection.sendall(request)
        return all_of(connection)


# ---- honest mirrors ----


def check_forms(tally, running):
    """The form is the one that the settings ask for, of each query anew; XML where they ask for none."""
    for query, kind, want in [
        (f"[out:json];{QUERY}", "application/json", JSON),
        (QUERY, "application/osm3s+xml", XML),
        (f"[out:xml];{QUERY}", "application/osm3s+xml", XML),
        (f"[out:xml][timeout:25][out:json];{QUERY}", "application/json", JSON),
    ]:
        for method in ("POST", "GET"):
            status, fields, body = asked(running.site, query, method=method)
            fitting = fields.get("Content-Type") == kind and fields.get("Osm-Root") == ROOT and fields.get("Connection") == "close"
            tally.check(f"{method} {query}", status == 200 and body == want and fitting, status, fields, body)
    form = b"data=" + urllib.parse.quote(f"[out:json];{QUERY}").encode()
    head = b"POST /api/interpreter HTTP/1.1\r\nHost: a\r\nContent-Length: %d\r\n\r\n" % len(form)
    got = raw(running, head + form)
    tally.check("a form", got.endswith(b"\r\n\r\n" + JSON), got)
    got = raw(running, head + form + head + form)
    tally.check("one request a connection", got.count(b"HTTP/1.1 ") == 1 and got.endswith(JSON), got)
    with running.connect() as connection:
        for byte in head + form:
            connection.sendall(bytes([byte]))
        got = all_of(connection)
    tally.check("byte by byte", got.endswith(b"\r\n\r\n" + JSON), got)


def check_refused(tally, running):
    """What isn't relayed: the query's faults, other paths and methods, heads that are none."""
    status, _, body = asked(running.site, "node(1)out;")
    tally.check("a query that doesn't read", (status, error_of(body)) == (400, "Q5 byte 7"), status, body)
    status, _, body = asked(running.site, "out count;")
    tally.check("outside of the language", (status, error_of(body)) == (400, "Q7 byte 4"), status, body)
    for request, want in [
        (b"GET /nothing HTTP/1.1\r\n\r\n", b"HTTP/1.1 404 Not Found\r\n"),
        (b"PUT /api/interpreter HTTP/1.1\r\nContent-Length: 0\r\n\r\n", b"HTTP/1.1 405 Method Not Allowed\r\n"),
        (b"POST /api/status HTTP/1.1\r\nContent-Length: 0\r\n\r\n", b"HTTP/1.1 405 Method Not Allowed\r\n"),
        (b"GET /api/interpreter HTTP/1.1\r\n\r\n", b"HTTP/1.1 400 Bad Request\r\n"),
        (b"POST /api/interpreter HTTP/1.1\r\n\r\n", b"HTTP/1.1 411 Length Required\r\n"),
        (b"POST /api/interpreter HTTP/1.1\r\nContent-Length: 1048577\r\n\r\n", b"HTTP/1.1 413 Payload Too Large\r\n"),
        (b"GET /" + b"x" * 9000 + b" HTTP/1.1\r\n\r\n", b"HTTP/1.1 431 Request Header Fields Too Large\r\n"),
        (b"hello\r\n\r\n", b"HTTP/1.1 400 Bad Request\r\n"),
        (b"POST /api/interpreter HTTP/1.1\r\nTransfer-Encoding: chunked\r\n\r\n", b"HTTP/1.1 501 Not Implemented\r\n"),
    ]:
        got = raw(running, request)
        tally.check(f"{request[:40]}", got.startswith(want) and b"Connection: close\r\n" in got, got)
    with urllib.request.urlopen(f"{running.site}/api/status", timeout=SECONDS) as got:
        body = got.read()
    tally.check("/api/status", body == STATUS, body)


def check_many(tally, running):
    """64 clients at once, each with its own query and form."""
    queries = [f"[out:{form}];{kind}({number});out;" for form in ("json", "xml") for kind, number in (("node", 1), ("node", 2), ("way", 10), ("rel", 100))]
    wanted = {query: run([PROGRAM, "ask", "--form", query[5:9].strip("];"), query], OBJECTS.read_bytes()).stdout for query in queries}
    with ThreadPoolExecutor(64) as clients:
        answers = list(clients.map(lambda number: (number, asked(running.site, queries[number % 8])), range(512)))
    right = sum(answer[0] == 200 and answer[2] == wanted[queries[number % 8]] for number, answer in answers)
    tally.check("512 queries of 64 clients", right == 512, right)


# ---- mirrors that aren't ----


def check_liars(tally, proof):
    right = checked_body(ANSWER, proof)
    query = f"[out:json];{QUERY}"
    with tempfile.TemporaryDirectory() as room:
        other = proof_of(Path(room), "node[highway=crossing];out;")
    for name, said, want in [
        ("a wrong answer", response(checked_body(b"n1 x0 y0\n", proof)), 200),
        ("bytes after it", response(right) + response(b"later"), 200),
        ("another proof", response(checked_body(ANSWER, other)), "the mirror's proof is refused: C8"),
        ("no proof", response(checked_body(ANSWER, b"")), "the mirror's proof is refused: C2"),
        ("another root", response(checked_body(ANSWER, other, OTHER_ROOT)), "the mirror answers under another root"),
        ("a refusal", response(b"Q7 byte 5\n", status=b"400 Bad Request"), "the mirror answered with status 400"),
        ("busy", response(b"no memory\n", status=b"503 Service Unavailable"), "the mirror answered with status 503"),
        ("packed", response(right, b"Content-Encoding: gzip"), "the mirror's response doesn't say how long it is"),
        ("a body that breaks off", response(right)[:-1], "the mirror closed the connection early"),
        ("nothing", b"", "the mirror closed the connection early"),
        ("hello", b"hello\r\n\r\n", "the mirror's response has no valid head"),
        ("too long", b"HTTP/1.1 200 OK\r\nContent-Length: 268435457\r\n\r\n", "the mirror's response is too long"),
        ("39 bytes", response(bytes(39)), "the mirror's response has another form"),
    ]:
        with mirror(said) as place, relay(place) as running:
            status, _, body = asked(running.site, query)
        if want == 200:
            tally.check(name, (status, body) == (200, JSON), status, body)
        else:
            tally.check(name, (status, error_of(body)) == (502, want), status, body)
    with socket.create_server(("127.0.0.1", 0)) as listening:
        place = f"127.0.0.1:{listening.getsockname()[1]}"
    with relay(place) as running:
        status, _, body = asked(running.site, query)
    tally.check("nobody there", (status, error_of(body)) == (502, "the mirror can't be reached"), status, body)


def check_slow(tally):
    """A mirror that says nothing, or a byte now and then, is given up after a minute, and delays nobody else."""
    dripping = [b"HTTP/1.1 200 OK\r\nContent-Length: 1000\r\n\r\n", *[b"x"] * 100]
    with (
        socket.create_server(("127.0.0.1", 0)) as silent,
        relay(f"127.0.0.1:{silent.getsockname()[1]}") as running,
        mirror(*dripping, pause=2.0) as dripping_mirror,
        relay(dripping_mirror) as other,
        ThreadPoolExecutor(4) as clients,
    ):
        begun = time.monotonic()
        waiting = [clients.submit(asked, place.site, f"[out:json];{QUERY}", seconds=90) for place in (running, running, running, other)]
        time.sleep(1)
        with urllib.request.urlopen(f"{running.site}/api/status", timeout=SECONDS) as got:
            body = got.read()
        tally.check("others are served meanwhile", body == STATUS and time.monotonic() - begun < 5, body)
        before = sum(map(int, Path(f"/proc/{running.process.pid}/stat").read_text().split()[13:15]))
        time.sleep(3)
        after = sum(map(int, Path(f"/proc/{running.process.pid}/stat").read_text().split()[13:15]))
        tally.check("it sleeps meanwhile", after - before < 30, before, after)
        for name, answer in zip(("silent", "silent", "silent", "dripping"), waiting):
            status, _, body = answer.result()
            tally.check(f"a {name} mirror", (status, error_of(body)) == (502, "the mirror went silent"), status, body)
        took = time.monotonic() - begun
    tally.check("they are given up in time", 59 < took < 75, took)


def check_idle(tally, running):
    """Clients that say nothing, or go away, delay nobody."""
    idle = [running.connect() for _ in range(70)]
    begun = time.monotonic()
    status, _, body = asked(running.site, f"[out:json];{QUERY}")
    took = time.monotonic() - begun
    tally.check("70 silent clients before one that asks", (status, body) == (200, JSON) and took < 15, status, took)
    for connection in idle:
        connection.close()
    for _ in range(50):
        connection = running.connect()
        connection.sendall(b"POST /api/interpreter HTTP/1.1\r\nContent-Length: 12\r\n\r\n" + QUERY.encode())
        connection.close()
    status, _, body = asked(running.site, f"[out:json];{QUERY}")
    tally.check("after clients that went away", (status, body) == (200, JSON), status)


def check_connections(tally, place):
    """It ends after as many connections as it is to serve; a bad root is refused."""
    with relay(place, "--connections", "2") as running:
        first = asked(running.site, QUERY)
        second = asked(running.site, f"[out:json];{QUERY}")
        outcome = running.ended()
        tally.check("two connections", first[2] == XML and second[2] == JSON and outcome == Outcome(b"", b"", 0), first, second, outcome)
    outcome = run([PROGRAM, "relay", "00", place, "0"])
    tally.check("a bad root", outcome == Outcome(b"", b"bad root\n", 2), outcome)


def check_fallbacks(tally, place, proof):
    """Where a mirror fails in any way, the next one is asked; the fault that is told is that of the last one."""
    query = f"[out:json];{QUERY}"
    with socket.create_server(("127.0.0.1", 0)) as listening:
        nobody = f"127.0.0.1:{listening.getsockname()[1]}"
    with relay(nobody, "--fallback", place) as running:
        status, _, body = asked(running.site, query)
    tally.check("the second mirror", (status, body) == (200, JSON), status, body)
    with mirror(response(checked_body(ANSWER, b""))) as liar, relay(liar, "--fallback", nobody, "--fallback", place) as running:
        status, _, body = asked(running.site, query)
    tally.check("the third mirror", (status, body) == (200, JSON), status, body)
    with mirror(response(checked_body(ANSWER, proof[:-1]))) as liar, relay(nobody, "--fallback", liar) as running:
        status, _, body = asked(running.site, query)
    tally.check("no mirror", (status, error_of(body)) == (502, "the mirror's proof is refused: C2"), status, body)


def check_root_file(tally, place):
    """The root of a file is in force as soon as the file is there, and again when it changes; another file changes nothing."""
    query = f"[out:json];{QUERY}"
    with tempfile.TemporaryDirectory() as folder:
        path = Path(folder) / "root"
        with relay(place, "--root-file", path, root=OTHER_ROOT) as running:
            for text, want in [
                (None, 502),
                (b"no root\n", 502),
                (ROOT.encode() + b"\n", 200),
                (ROOT.encode() + b"0\n", 200),
                (OTHER_ROOT.encode() + b"\n", 502),
                (ROOT.upper().encode(), 200),
            ]:
                if text is not None:
                    (Path(folder) / "next").write_bytes(text)
                    (Path(folder) / "next").rename(path)
                status, _, body = asked(running.site, query)
                tally.check(f"the root of a file: {text}", status == want, status, body)


def check_publishing(tally):
    """64 clients while the mirror publishes changes, one after the other, and the file of the root follows: each answer is the
    one of the set whose root it names. Where the mirror is already further than the file, the client is told so."""
    query = "[out:json];node(1);out meta;"
    lines = OBJECTS.read_text().splitlines(keepends=True)
    with tempfile.TemporaryDirectory() as folder:
        room = Path(folder)
        changes = room / "changes"
        changes.mkdir()
        wanted, roots, texts = {}, [], []
        for sequence in range(PUBLICATIONS + 1):
            texts.append(f"n1 v{sequence + 1} dV c5 t2020-01-02T03:04:05Z i7 uAnn Tnumber={sequence} x13.4 y52.5\n")
            path = room / f"{sequence}.set"
            path.write_text(texts[-1] + "".join(lines[1:]))
            roots.append(run([PROGRAM, "publish", path, "--sequence", str(sequence)]).stdout.decode().split()[0])
            wanted[roots[-1]] = run([PROGRAM, "ask", "--form", "json", query], path.read_bytes()).stdout
        answers, is_over = [], threading.Event()

        def put(path, text):
            (room / "next").write_text(text)
            (room / "next").rename(path)

        def client(_):
            while not is_over.is_set():
                answers.append(asked(running.site, query))

        def comes(what, seconds=30):
            """Waits until this is so, and says whether it came."""
            end = time.monotonic() + seconds
            while not what() and time.monotonic() < end:
                time.sleep(0.02)
            return what()

        with (
            server(room / "0.set", "--changes", changes) as publishing,
            relay(f"127.0.0.1:{publishing.port}", "--root-file", room / "root", root=roots[0]) as running,
            ThreadPoolExecutor(64) as clients,
        ):
            asking = [clients.submit(client, number) for number in range(64)]
            for sequence in range(1, PUBLICATIONS + 1):
                put(changes / f"{sequence}.opl", texts[sequence])
                published = comes(lambda: root_of(publishing.port) == roots[sequence])
                put(room / "root", roots[sequence] + "\n")
                seen = comes(lambda: any(fields.get("Osm-Root") == roots[sequence] for status, fields, _ in answers if status == 200))
                tally.check(f"publication {sequence} comes to the clients", published and seen, published, seen)
            is_over.set()
            for one in asking:
                one.result()
            last = asked(running.site, query)
        right = [answer for answer in answers if answer[0] == 200 and answer[2] == wanted.get(answer[1].get("Osm-Root"))]
        told = [body for status, _, body in answers if status == 502 and error_of(body) == "the mirror answers under another root"]
        others = [answer for answer in answers if answer[0] not in (200, 502)]
        tally.check("while the mirror publishes", len(right) + len(told) == len(answers), len(answers), len(right), len(told), others[:2])
        tally.check("the last root is in force", (last[0], last[2]) == (200, wanted[roots[-1]]), last)


def check_memory(tally, place):
    """Each allocation refused in turn, from the first request on: the answer, 503, or the end; never something else."""
    told = 0
    for number in range(1, 400):
        refusing = {"REFUSE_ALLOCATION": number}
        with tempfile.TemporaryDirectory() as room:
            mark = Path(room) / "refused"
            with relay(place, "--connections", "1", refusing=refusing | {"REFUSE_MARK": mark}) as running:
                if running.port is None:
                    continue
                try:
                    status, _, body = asked(running.site, f"[out:json];{QUERY}")
                except (OSError, http.client.HTTPException):
                    status, body = None, b""
                holds = (status, body) == (200, JSON) or status in (None, 503) or (status == 502 and mark.exists())
                tally.check(f"allocation {number} refused", holds, status, body)
                told += status == 503
            if not mark.exists():
                break
    tally.check("some were told", told > 3, told)


# ---- a client that people use ----


def check_curl(tally, running):
    if shutil.which("curl") is None:
        print("SKIPPED: curl isn't installed")
        return
    words = ["curl", "--silent", "--show-error", "--data-urlencode", f"data=[out:json];{QUERY}", f"{running.site}/api/interpreter"]
    outcome = run(words)
    tally.check("curl", outcome == Outcome(JSON, b"", 0), outcome)


def main():
    tally = Tally()
    with server(OBJECTS) as running_mirror:
        place = f"127.0.0.1:{running_mirror.port}"
        with relay(place) as running:
            want = f"osm_mirror listens on 127.0.0.1:{running.port}, relays {place}, root {ROOT}\n".encode()
            tally.check("its first line", running.line == want, running.line)
            check_forms(tally, running)
            check_refused(tally, running)
            check_many(tally, running)
            check_idle(tally, running)
            check_curl(tally, running)
        check_connections(tally, place)
        check_memory(tally, place)
        check_root_file(tally, place)
        check_publishing(tally)
        with tempfile.TemporaryDirectory() as room:
            proof = proof_of(Path(room))
        check_fallbacks(tally, place, proof)
    check_liars(tally, proof)
    check_slow(tally)
    tally.end()


if __name__ == "__main__":
    main()
