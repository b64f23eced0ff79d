"""`serve` over loopback sockets: the vectors' connections, real clients, refused allocations, failing devices, and nginx
in front.

What needs curl, openssl or nginx is skipped where they aren't there, and said so.
"""

import errno
import http.client
import os
import shutil
import socket
import ssl
import subprocess
import tempfile
import threading
import time
from collections import Counter
from concurrent.futures import ThreadPoolExecutor
from contextlib import contextmanager
from itertools import count, cycle
from pathlib import Path
from urllib.parse import quote

from lines_rows_test import rows, set_file
from runs import PROGRAM, SECONDS, TOP, Outcome, Tally, built_library, run

NGINX = TOP / "examples/nginx.conf"

QUERY = "node(1);out ids;"
ANSWER = b"n1\n"

NO_MEMORY = (
    b"HTTP/1.1 503 Service Unavailable\r\nContent-Type: text/plain; charset=utf-8\r\n"
    b"Content-Length: 10\r\nConnection: close\r\n\r\nno memory\n"
)


def root_of(name, edition):
    """The root of a set of the vectors with sequence number 0."""
    return next(row[3].decode() for row in rows("roots.tsv") if row[:3] == [name, edition, b"0"])


class Server:
    """A server that runs, and the line that it began with."""

    def __init__(self, file, words, environment, port=0):
        command = [PROGRAM, "serve", file, str(port), *words]
        # Unbuffered: what follows the first line has to stay in the pipe for `communicate`, which reads past a buffer.
        self.process = subprocess.Popen(
            command, bufsize=0, stdout=subprocess.PIPE, stderr=subprocess.PIPE, env=environment
        )
        self.line = self.process.stderr.readline()
        begun = self.line.startswith(b"osm_mirror listens on 127.0.0.1:")
        self.port = int(self.line.split(b",")[0].split(b":")[1]) if begun else None

    def connect(self):
        return socket.create_connection(("127.0.0.1", self.port), timeout=SECONDS)

    def ended(self):
        """What it wrote after its first line, and its status, once it has ended."""
        stdout, stderr = self.process.communicate(timeout=SECONDS)
        return Outcome(stdout, stderr, self.process.returncode)

    def descriptors(self):
        """How many files and sockets it has open."""
        return len(os.listdir(f"/proc/{self.process.pid}/fd"))

    def peak_kib(self):
        """The most memory that it had so far."""
        text = Path(f"/proc/{self.process.pid}/status").read_text(encoding="ascii")
        return next(int(line.split()[1]) for line in text.splitlines() if line.startswith("VmHWM"))


@contextmanager
def server(file, *words, refusing=None):
    """A server over this file, ended when the block ends."""
    environment = dict(os.environ)
    if refusing is not None:
        environment |= {"LD_PRELOAD": str(built_library())} | {k: str(v) for k, v in refusing.items()}
    running = Server(file, [str(word) for word in words], environment)
    try:
        yield running
    finally:
        running.process.kill()
        running.process.communicate()


def all_of(connection):
    """All bytes that come until the other side closes, or breaks off."""
    parts = []
    try:
        while part := connection.recv(1 << 16):
            parts.append(part)
    except ConnectionResetError:
        pass
    return b"".join(parts)


def told(running, pieces):
    """All that a connection gets to these pieces, after which nothing more comes; nothing where none is taken any more."""
    try:
        connection = running.connect()
    except (ConnectionRefusedError, ConnectionResetError):
        return b""
    with connection:
        connection.setsockopt(socket.IPPROTO_TCP, socket.TCP_NODELAY, 1)
        try:
            for piece in pieces:
                connection.sendall(piece)
            connection.shutdown(socket.SHUT_WR)
        except OSError as error:
            # The server has closed the connection already.
            if error.errno not in (errno.EPIPE, errno.ECONNRESET, errno.ENOTCONN):
                raise
        return all_of(connection)


def check_vectors(tally):
    """Each connection of the vectors, in one piece and cut, gets the vectors' answers."""
    listed = [[row[0], row[1], *map(bytes.fromhex, (row[2].decode(), row[3].decode()))] for row in rows("requests.tsv")]
    tally.check("all connections are there", len(listed) == 138, len(listed))
    for name, edition in sorted({(row[0], row[1]) for row in listed}):
        of_set = [row[2:] for row in listed if row[:2] == [name, edition]]
        with server(set_file(name), "--edition", edition.decode(), "--connections", 3 * len(of_set)) as running:
            objects = len(set_file(name).read_bytes().splitlines())
            line = f"osm_mirror listens on 127.0.0.1:{running.port}, over {objects} objects, root {root_of(name, edition)}\n"
            tally.check(f"{name} {edition} begins", running.line == line.encode(), running.line)
            for given, want in of_set:
                for cuts in [(), (1, len(given) // 2), (len(given) - 1,)]:
                    places = [0, *cuts, len(given)]
                    got = told(running, [given[a:b] for a, b in zip(places, places[1:])])
                    tally.check(f"{name} {edition} {given[:60]} {cuts}", got == want, got[:300])
            outcome = running.ended()
            tally.check(f"{name} {edition} ends", outcome == Outcome(b"", b"", 0), outcome)


def check_words(tally):
    """What can't be served is told in the order of the words, the set and the port."""
    for words, want in [
        (["no-such-file", "0", "--edition", "3"], Outcome(b"", b"bad edition\n", 2)),
        (["no-such-file", "0"], Outcome(b"", b"device\n", 3)),
        ([set_file(b"one"), "0", "--connections", "0"], None),
    ]:
        outcome = run([PROGRAM, "serve", *words])
        if want is None:
            tally.check(f"serve {words}", outcome.status == 0 and outcome.stderr.count(b"\n") == 1, outcome)
        else:
            tally.check(f"serve {words}", outcome == want, outcome)
    with socket.create_server(("127.0.0.1", 0)) as taken:
        outcome = run([PROGRAM, "serve", set_file(b"one"), str(taken.getsockname()[1])])
        tally.check("a port that is taken", outcome == Outcome(b"", b"device\n", 3), outcome)


def check_python(tally):
    """python3's client, over one kept connection."""
    with server(set_file(b"F"), "--connections", 1) as running:
        client = http.client.HTTPConnection("127.0.0.1", running.port, timeout=SECONDS)
        for method, target, body, status, want in [
            ("GET", f"/api/interpreter?data={quote(QUERY)}", None, 200, ANSWER),
            ("POST", "/api/interpreter", QUERY, 200, ANSWER),
            ("POST", "/api/interpreter", f"data={quote(QUERY)}", 200, ANSWER),
            ("GET", "/api/root", None, 200, root_of(b"F", b"2").encode() + b"\n"),
            ("GET", "/api", None, 404, b"not found\n"),
            ("DELETE", "/api/root", None, 405, b"method not allowed\n"),
            ("POST", "/api/interpreter", 'node[~"a"~"b"];out;', 400, b"Q7 byte 5\n"),
            ("GET", "/api/interpreter", None, 400, b"no data\n"),
        ]:
            client.request(method, target, body)
            reply = client.getresponse()
            got = reply.read()
            tally.check(f"http.client {method} {target} {body}", (reply.status, got) == (status, want), reply.status, got)
            root = root_of(b"F", b"2") if status == 200 else None
            tally.check(f"http.client {target} root", reply.headers["Osm-Root"] == root, reply.headers)
        client.close()
        tally.check("http.client ends", running.ended() == Outcome(b"", b"", 0))


def check_curl(tally):
    """curl, as people call it: a form, a raw body, a kept connection, HTTP/1.0, HEAD."""
    if shutil.which("curl") is None:
        print("SKIPPED: curl isn't installed")
        return
    with server(set_file(b"F")) as running:
        site = f"http://127.0.0.1:{running.port}/api"
        for words, want in [
            ([f"{site}/interpreter", "--data-urlencode", f"data={QUERY}"], ANSWER),
            ([f"{site}/interpreter", "--data-urlencode", f"data={QUERY}", "--get"], ANSWER),
            ([f"{site}/interpreter", "--data-binary", QUERY], ANSWER),
            ([f"{site}/interpreter", "--data-binary", QUERY, "--http1.0"], ANSWER),
            ([f"{site}/root", f"{site}/root", "--write-out", "%{num_connects}\n"],
             b"".join(root_of(b"F", b"2").encode() + b"\n" + n + b"\n" for n in (b"1", b"0"))),
            ([f"{site}/root", "--head", "--output", os.devnull, "--write-out", "%{http_code}"], b"405"),
            ([f"{site}/interpreter", "--data-binary", "@" + os.devnull, "--write-out", "%{http_code}"], b"200"),
        ]:
            outcome = run(["curl", "--silent", "--show-error", *words])
            tally.check(f"curl {words}", outcome == Outcome(want, b"", 0), outcome)


def check_load(tally):
    """10,000 requests on one connection, which take no more memory at the end than after the first thousand."""
    request = b"POST /api/interpreter HTTP/1.1\r\nContent-Length: 16\r\n\r\n" + QUERY.encode()
    with server(set_file(b"F"), "--connections", 1) as running, running.connect() as connection:
        file = connection.makefile("rb")
        met, early = 0, None
        for number in range(10_000):
            connection.sendall(request)
            status, length = file.readline(), 0
            while (line := file.readline()) != b"\r\n":
                if line.lower().startswith(b"content-length:"):
                    length = int(line.split(b":")[1])
            met += (status, file.read(length)) == (b"HTTP/1.1 200 OK\r\n", ANSWER)
            if number == 1_000:
                early = running.peak_kib()
        tally.check("10,000 requests", met == 10_000, met)
        late = running.peak_kib()
        tally.check("flat memory", late <= early + 64, early, late)


def check_idle(tally):
    """A client that says nothing doesn't hold the next one, and loses its connection after ten seconds."""
    with server(set_file(b"F"), "--connections", 2) as running, running.connect() as idle:
        begun = time.monotonic()
        got = told(running, [b"GET /api/root HTTP/1.0\r\n\r\n"])
        took = time.monotonic() - begun
        tally.check("the next is served", got.endswith(root_of(b"F", b"2").encode() + b"\n") and took < 5, took, got)
        tally.check("the idle one got nothing", all_of(idle) == b"")
        took = time.monotonic() - begun
        tally.check("the idle one is let go", 9 < took < 20, took)
        outcome = running.ended()
        tally.check("an idle client is told", outcome == Outcome(b"", b"G1\n", 0), outcome)


def check_allocations(tally, edition):
    """Each allocation refused in turn, in this edition: before it listens it ends, after that one connection ends with the 503
    at most, which is told as G3."""
    request = b"POST /api/checked HTTP/1.1\r\nContent-Length: 16\r\n\r\n" + QUERY.encode()
    words = ("--edition", edition, "--connections")
    with server(set_file(b"F"), *words, 1) as running:
        whole = told(running, [request, request])
    tally.check(f"edition {edition}: the root", root_of(b"F", edition.encode()).encode() in whole.lower(), whole[:300])

    def is_given_up(got):
        """Whether none or one of the two requests has its response, and then comes the 503."""
        begun = got.removesuffix(NO_MEMORY)
        return begun != got and whole.startswith(begun) and len(begun) in (0, len(whole) // 2)

    met = given_up = 0
    for number in count(1):
        with tempfile.TemporaryDirectory() as room:
            mark = Path(room) / "refused"
            refusing = {"REFUSE_ALLOCATION": number, "REFUSE_MARK": mark}
            with server(set_file(b"F"), *words, 2, refusing=refusing) as running:
                if running.port is None:
                    rest = running.ended()
                    tally.check(f"edition {edition}, allocation {number}", (running.line, rest) == (b"no memory\n", Outcome(b"", b"", 3)),
                                running.line, rest)
                    continue
                first = told(running, [request, request])
                second = told(running, [request, request])
                rest = running.ended()
            if not mark.exists():
                break
            met += 1
            given_up += rest.stderr == b"G3\n"
            both = (is_given_up(first), is_given_up(second))
            holds = (
                (first, second, rest) == (whole, whole, Outcome(b"", b"", 0))
                or (both[0] and second == whole and rest == Outcome(b"", b"G3\n", 0))
                or (first == whole and both[1] and rest == Outcome(b"", b"G3\n", 0))
                or (first in (b"", whole) and second == b"" and rest == Outcome(b"", b"no memory\n", 3))
            )
            tally.check(f"edition {edition}, allocation {number}", holds, first[-200:], second[-200:], rest)
    tally.check(f"edition {edition}: allocations of requests were refused", met > 10 and given_up > 0, met, given_up)


def check_opening(tally):
    """A socket that can't be made, bound or named, or doesn't listen, is a device that fails, before any line is told."""
    for kind in ("REFUSE_SOCKET", "REFUSE_BIND", "REFUSE_LISTEN", "REFUSE_NAME"):
        with tempfile.TemporaryDirectory() as room:
            mark = Path(room) / "refused"
            with server(set_file(b"F"), refusing={kind: 1, "REFUSE_MARK": mark}) as running:
                rest = running.ended()
            tally.check(kind, (mark.exists(), running.line, rest) == (True, b"device\n", Outcome(b"", b"", 3)), running.line, rest)


def check_accepting(tally):
    """Taking a connection that fails in passing is tried again, and all are served; any other failure ends the server."""
    request = b"GET /api/root HTTP/1.1\r\nConnection: close\r\n\r\n"
    root = root_of(b"F", b"2").encode() + b"\n"
    passing = (
        errno.ECONNABORTED, errno.EINTR, errno.EMFILE, errno.ENFILE, errno.ENOBUFS, errno.ENOMEM, errno.EPROTO,
        errno.ENETDOWN, errno.EHOSTUNREACH, errno.EPERM,
    )
    # The first call of all may come before any client, and finds none.
    for number in (1, 2, 3):
        for cause in (*passing, errno.EINVAL):
            refusing = {"REFUSE_ACCEPT": number, "REFUSE_ERRNO": cause}
            with server(set_file(b"F"), "--connections", 2, refusing=refusing) as running:
                got = [told(running, [request]).endswith(root) for _ in range(2)]
                rest = running.ended()
            if cause in passing:
                holds = (got, rest) == ([True, True], Outcome(b"", b"", 0))
            else:
                holds = not all(got) and rest == Outcome(b"", b"device\n", 3)
            tally.check(f"accept {number}, {errno.errorcode[cause]}", holds, got, rest)


def check_devices(tally):
    """Each recv and each send refused in turn, whole and 16 bytes a call: that connection is told, and the next is served."""
    first = b"POST /api/interpreter HTTP/1.1\r\nContent-Length: 16\r\n\r\n" + QUERY.encode()
    last = b"GET /api/root HTTP/1.1\r\nConnection: close\r\n\r\n"
    with server(set_file(b"F"), "--connections", 2) as running:
        whole = told(running, [first, last])
        one = whole.removesuffix(told(running, [last]))
    tally.check("two responses", 0 < len(one) < len(whole), whole)
    for kind, code in (("REFUSE_RECV", b"G1\n"), ("REFUSE_SEND", b"G2\n")):
        for others in ({}, {"SHORT_READS": 16, "SHORT_WRITES": 16}):
            check_each_call(tally, kind, code, others, (first, last), (one, whole))


def refused_in_request(request, *words):
    """The number of an allocation whose refusal is told to one request, with status 503 and as G3: the last ones of a run
    belong to it. None where there is no such allocation."""
    with tempfile.TemporaryDirectory() as room:
        counted = Path(room) / "allocations"
        with server(set_file(b"F"), *words, "--connections", 1, refusing={"COUNT_FILE": counted}) as running:
            told(running, [request])
            running.ended()
        made = int(counted.read_text(encoding="ascii"))
    for number in range(made, 0, -1):
        with server(set_file(b"F"), *words, "--connections", 1, refusing={"REFUSE_ALLOCATION": number}) as running:
            if running.port is None:
                return None
            if told(running, [request]) == NO_MEMORY and running.ended().stderr == b"G3\n":
                return number
    return None


def check_broken_refusals(tally):
    """The response without memory, 16 bytes a send, breaks off at each send in turn: then G2 follows G3, and what came is a
    beginning of that response."""
    request = b"POST /api/checked HTTP/1.1\r\nContent-Length: 16\r\n\r\n" + QUERY.encode()
    number = refused_in_request(request)
    tally.check("an allocation of a request", number is not None)
    for fails_at in count(1) if number is not None else ():
        refusing = {"REFUSE_ALLOCATION": number, "REFUSE_SEND": fails_at, "SHORT_WRITES": 16}
        with server(set_file(b"F"), "--connections", 1, refusing=refusing) as running:
            got = told(running, [request])
            rest = running.ended()
        if rest == Outcome(b"", b"G3\n", 0):
            tally.check("the whole response without memory", got == NO_MEMORY and fails_at > len(NO_MEMORY) // 16, got, fails_at)
            break
        holds = NO_MEMORY.startswith(got) and len(got) <= 16 * (fails_at - 1) and rest == Outcome(b"", b"G3\nG2\n", 0)
        tally.check(f"without memory, send {fails_at}", holds, got, rest)
        if not holds:
            break


def check_editions(tally):
    """A connection that ends badly is told in one line in either edition, and the next is served."""
    request = b"GET /api/root HTTP/1.1\r\nConnection: close\r\n\r\n"
    for edition in ("1", "2"):
        root = root_of(b"F", edition.encode()).encode() + b"\n"
        for kind, code in (("REFUSE_RECV", b"G1\n"), ("REFUSE_SEND", b"G2\n")):
            with server(set_file(b"F"), "--edition", edition, "--connections", 2, refusing={kind: 1}) as running:
                first, second = told(running, [request]), told(running, [request])
                rest = running.ended()
            holds = first == b"" and second.endswith(root) and rest == Outcome(b"", code, 0)
            tally.check(f"edition {edition}, {kind}", holds, first, second, rest)


def check_limits(tally):
    """A request on each side of each limit: the bytes and the fields of a head, the digits of a length, and a body."""
    line, end = b"GET /api/root HTTP/1.1\r\n", b"Connection: close\r\n\r\n"

    def head_of(size):
        return line + b"X: " + (size - len(line) - len(end) - 5) * b"x" + b"\r\n" + end

    def posted(length, body):
        return b"POST /api/interpreter HTTP/1.1\r\nConnection: close\r\nContent-Length: " + length + b"\r\n\r\n" + body

    rows_of_limits = [
        ("8,192 bytes of a head", head_of(8192), b"200", root_of(b"F", b"2").encode() + b"\n"),
        ("8,193 bytes of a head", head_of(8193), b"431", b"head too large\n"),
        ("64 fields", line + 63 * b"X: x\r\n" + end, b"200", root_of(b"F", b"2").encode() + b"\n"),
        ("65 fields", line + 64 * b"X: x\r\n" + end, b"431", b"head too large\n"),
        ("19 digits", posted(b"0000000000000000016", QUERY.encode()), b"200", ANSWER),
        ("20 digits", posted(b"00000000000000000016", QUERY.encode()), b"400", b"bad length\n"),
        ("19 digits of a great length", posted(19 * b"9", b""), b"413", b"too large\n"),
        ("2^20 bytes of a body", posted(b"1048576", (QUERY + (1048576 - 16) * " ").encode()), b"400", b"Q9 byte 65536\n"),
        ("2^20 + 1 bytes of a body", posted(b"1048577", b""), b"413", b"too large\n"),
    ]
    with server(set_file(b"F"), "--connections", len(rows_of_limits)) as running:
        for name, given, status, body in rows_of_limits:
            got = told(running, [given])
            tally.check(name, got.startswith(b"HTTP/1.1 " + status + b" ") and got.endswith(b"\r\n\r\n" + body), got[:300])
        tally.check("limits end", running.ended() == Outcome(b"", b"", 0))


def check_each_call(tally, kind, code, others, requests, responses):
    """Calls of one kind, refused in turn in the first of two connections, until there is none of this number in it."""
    one, whole = responses
    for number in count(1):
        with tempfile.TemporaryDirectory() as room:
            mark = Path(room) / "refused"
            refusing = {kind: number, "REFUSE_MARK": mark} | others
            with server(set_file(b"F"), "--connections", 2, refusing=refusing) as running:
                got = told(running, [b"".join(requests)])
                is_refused = mark.exists()
                second = told(running, [requests[1]])
                rest = running.ended()
        name = f"{kind} {number} {'16 bytes a call' if others else ''}"
        if got == whole:
            # The call fell into the wait for the client's end, or into the next connection, or there is none.
            tally.check(f"{name} is past the first connection", rest.status == 0 and number > 1, number, rest)
            return
        holds = is_refused and whole.startswith(got) and second == whole.removeprefix(one)
        if kind == "REFUSE_RECV":
            # What was read before has its responses, whole.
            holds = holds and got in (b"", one)
        tally.check(name, holds and rest == Outcome(b"", code, 0), got[-100:], second[-100:], rest)


@contextmanager
def nginx_before(ports, room, *changes):
    """nginx with the example's configuration over these ports, listening on a port of its own, which is given. Changes are
    pairs of a text of the configuration and the one that stands for it here."""
    with socket.create_server(("127.0.0.1", 0)) as free:
        port = free.getsockname()[1]
    text = NGINX.read_text(encoding="utf-8").replace("/run/osm-mirror", str(room)).replace(":8443", f":{port}")
    for written, is_one in zip((8081, 8082), ports):
        text = text.replace(f":{written}", f":{is_one}")
    for old, new in changes:
        assert old in text, old
        text = text.replace(old, new)
    (room / "nginx.conf").write_text(text, encoding="utf-8")
    key, certificate = room / "key.pem", room / "certificate.pem"
    subprocess.run(
        ["openssl", "req", "-x509", "-newkey", "rsa:2048", "-nodes", "-days", "2", "-subj", "/CN=localhost", "-addext",
         "subjectAltName=DNS:localhost", "-keyout", key, "-out", certificate], check=True, capture_output=True)
    command = ["nginx", "-c", str(room / "nginx.conf"), "-e", str(room / "nginx.log"), "-g", "daemon off;"]
    running = subprocess.Popen(command, stdout=subprocess.PIPE, stderr=subprocess.PIPE)
    try:
        for _ in range(200):
            with socket.socket() as probe:
                if probe.connect_ex(("127.0.0.1", port)) == 0:
                    break
            time.sleep(0.05)
        yield port
    finally:
        running.terminate()
        running.communicate(timeout=SECONDS)


def check_nginx(tally):
    """TLS, two mirrors, many clients at a time."""
    if missing := [name for name in ("nginx", "openssl", "curl") if shutil.which(name) is None]:
        print(f"SKIPPED: {', '.join(missing)} isn't installed")
        return
    with tempfile.TemporaryDirectory() as folder, server(set_file(b"F")) as one, server(set_file(b"F")) as two:
        room = Path(folder)
        room.chmod(0o755)
        with nginx_before((one.port, two.port), room) as port:
            site = f"https://localhost:{port}"
            words = ["curl", "--silent", "--show-error", "--cacert", room / "certificate.pem", "--parallel",
                     "--data-urlencode", f"data={QUERY}", f"{site}/api/interpreter?[1-200]"]
            outcome = run(words)
            # (some versions of curl show their progress all the same)
            holds = (outcome.stdout, outcome.status) == (ANSWER * 200, 0)
            tally.check("200 requests through nginx", holds, outcome.stderr, len(outcome.stdout))
            outcome = run(["curl", "--silent", "--cacert", room / "certificate.pem", "--write-out", "%{http_code}",
                           "--output", "/dev/null", f"{site}/nothing"])
            tally.check("nginx has nothing but the page and /api/", outcome.stdout == b"404", outcome)
    check_restarts(tally)
    check_stuck(tally)


def statuses_through(port, trust, bodies, is_over):
    """The statuses of requests through nginx, one after the other over kept connections, until it is over."""
    context = ssl.create_default_context(cafile=trust)
    statuses = Counter()
    client = http.client.HTTPSConnection("localhost", port, context=context, timeout=SECONDS)
    for body in cycle(bodies):
        if is_over():
            break
        client.request("GET" if body is None else "POST", "/api/interpreter?data=" + quote(QUERY), body)
        response = client.getresponse()
        is_answer = response.read() == ANSWER
        statuses[response.status if is_answer or response.status != 200 else "another answer"] += 1
        if response.will_close:
            client.close()
        time.sleep(0.025)
    client.close()
    return statuses


def check_restarts(tally):
    """Two mirrors behind nginx are restarted in turn, and hardly a request fails: each is asked of the other one."""
    with tempfile.TemporaryDirectory() as folder:
        room = Path(folder)
        room.chmod(0o755)
        mirrors = [Server(set_file(b"F"), (), None) for _ in range(2)]
        ports = [mirror.port for mirror in mirrors]
        try:
            with nginx_before(ports, room) as port, ThreadPoolExecutor() as workers:
                ends_at = time.monotonic() + 4
                asking = [
                    workers.submit(statuses_through, port, room / "certificate.pem", bodies, lambda: time.monotonic() > ends_at)
                    for bodies in ([None], [f"data={quote(QUERY)}"])
                ]
                for place in (0, 1, 0, 1):
                    time.sleep(0.6)
                    mirrors[place].process.kill()
                    mirrors[place].ended()
                    time.sleep(0.2)
                    mirrors[place] = Server(set_file(b"F"), (), None, ports[place])
                counted = sum((it.result() for it in asking), Counter())
        finally:
            for mirror in mirrors:
                mirror.process.kill()
                mirror.ended()
        asked = counted.total()
        holds = set(counted) <= {200, 502} and counted[200] >= asked - 3 and asked >= 200
        tally.check("a rolling restart behind nginx", holds, dict(counted))


@contextmanager
def silent_mirror():
    """A port that takes connections and never answers, and the list of those that it has taken."""
    taken = []
    with socket.create_server(("127.0.0.1", 0)) as listening:
        listening.settimeout(0.05)
        stopped = threading.Event()

        def take():
            while not stopped.is_set():
                try:
                    taken.append(listening.accept()[0])
                except TimeoutError:
                    pass

        taking = threading.Thread(target=take)
        taking.start()
        try:
            yield listening.getsockname()[1], taken
        finally:
            stopped.set()
            taking.join()
            for connection in taken:
                connection.close()


def check_stuck(tally):
    """A request that keeps one mirror busy until nginx gives it up isn't asked of the next one as well."""
    with tempfile.TemporaryDirectory() as folder, silent_mirror() as (one, at_one), silent_mirror() as (two, at_two):
        room = Path(folder)
        room.chmod(0o755)
        with nginx_before((one, two), room, ("proxy_read_timeout 120s", "proxy_read_timeout 1s")) as port:
            words = ["curl", "--silent", "--cacert", room / "certificate.pem", "--write-out", "%{http_code}",
                     "--output", "/dev/null", "--data-urlencode", f"data={QUERY}", f"https://localhost:{port}/api/interpreter"]
            outcome = run(words)
            times = len(at_one) + len(at_two)
            tally.check("a stuck query is asked of one mirror", (outcome.stdout, times) == (b"504", 1), outcome, times)


def main():
    tally = Tally()
    built_library()
    check_words(tally)
    check_vectors(tally)
    check_python(tally)
    check_curl(tally)
    check_load(tally)
    check_idle(tally)
    for edition in ("1", "2"):
        check_allocations(tally, edition)
    check_opening(tally)
    check_accepting(tally)
    check_devices(tally)
    check_broken_refusals(tally)
    check_editions(tally)
    check_limits(tally)
    check_nginx(tally)
    tally.end()


if __name__ == "__main__":
    main()
