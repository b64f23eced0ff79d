"""`query` of packs on servers of files: nginx and a small server of ranges give the answers that `ask` gives, and servers that
fail, lie or turn bytes give the right answer or a refusal. Without nginx its part is skipped, and said so."""

import http.server
import os
import re
import shutil
import socket
import socketserver
import subprocess
import tempfile
import threading
import time
from concurrent.futures import ThreadPoolExecutor
from contextlib import contextmanager
from pathlib import Path

from lines_rows_test import rows, set_file
from pack_files_test import ANSWER, QUERY, options_of
from packs import HEADER
from runs import PROGRAM, Outcome, Tally, run

DEVICE = Outcome(b"", b"the device failed\n", 3)


def part(pack, first, last, size=None, more=b""):
    """The response with these bytes of a file, the last one included."""
    last = min(last, len(pack) - 1)
    body = pack[first : last + 1]
    size = len(pack) if size is None else size
    return (
        b"HTTP/1.1 206 Partial Content\r\nContent-Range: bytes %d-%d/%d\r\nContent-Length: %d\r\n%s\r\n"
        % (first, last, size, len(body), more)
    ) + body


class Connection(socketserver.BaseRequestHandler):
    """A connection over which each request gets what `self.server.answer` gives: bytes, and whether it stays open."""

    def handle(self):
        with self.server.lock:
            self.server.connections += 1
        left = b""
        try:
            while True:
                while b"\r\n\r\n" not in left:
                    came = self.request.recv(65536)
                    if not came:
                        return
                    left += came
                head, left = left.split(b"\r\n\r\n", 1)
                first, last = map(int, re.search(rb"\r\nRange: bytes=(\d+)-(\d+)", head).groups())
                with self.server.lock:
                    self.server.requests.append((head, first, last))
                    number = len(self.server.requests)
                text, stays = self.server.answer(number, first, last)
                self.request.sendall(text)
                if not stays:
                    return
        except OSError:
            return


@contextmanager
def serving(answer):
    """A server that answers so: yields it."""

    class Server(socketserver.ThreadingTCPServer):
        daemon_threads = True
        allow_reuse_address = True

    with Server(("127.0.0.1", 0), Connection) as server:
        server.answer = answer
        server.lock = threading.Lock()
        server.requests = []
        server.connections = 0
        threading.Thread(target=server.serve_forever, daemon=True).start()
        yield server
        server.shutdown()


def place_of(server, path="/a.pack"):
    return f"http://127.0.0.1:{server.server_address[1]}{path}"


def honest(pack):
    return lambda number, first, last: (part(pack, first, last), True)


def check_place(tally, name, root, place, wanted, query=QUERY, words=()):
    ended = run([PROGRAM, "query", root, place, query, *words])
    tally.check(name, ended in wanted, ended)


def packs_of(folder):
    """Packs of sets of the vectors, in both editions: the root and the file of each."""
    packs = {}
    for name, edition, sequence, root, *_ in rows("roots.tsv"):
        if edition != b"0" and sequence == b"0":
            path = folder / f"{name.decode()}-{edition.decode()}.pack"
            run([PROGRAM, "pack", set_file(name), path, *options_of(edition, sequence)])
            packs[name, edition] = root, path
    return packs


def check_answers(tally, server_name, place, packs):
    """Each query of the vectors is answered from the pack of its set on a server, in both editions."""
    asked = [(row, packs[row[0], edition][0], place(packs[row[0], edition][1])) for row in rows("meanings.tsv") for edition in (b"1", b"2")]

    def answered(it):
        (name, query, answer), root, where = it
        return name, query, answer, run([PROGRAM, "query", root, where, query])

    with ThreadPoolExecutor() as workers:
        for name, query, answer, ended in workers.map(answered, asked):
            tally.check(f"{server_name} {name} {query}", ended == Outcome(answer, b"", 0), ended)


class RangeFiles(http.server.SimpleHTTPRequestHandler):
    """Another static server: http.server with ranges, which speaks HTTP/1.0 and closes after each response."""

    def do_GET(self):
        path = Path(self.translate_path(self.path))
        found = re.fullmatch(r"bytes=(\d+)-(\d+)", self.headers.get("Range", ""))
        if not path.is_file() or not found:
            self.send_error(404 if not path.is_file() else 400)
            return
        text = path.read_bytes()
        first, last = int(found[1]), min(int(found[2]), len(text) - 1)
        self.send_response(206)
        self.send_header("Content-Range", f"bytes {first}-{last}/{len(text)}")
        self.send_header("Content-Length", str(last - first + 1))
        self.end_headers()
        self.wfile.write(text[first : last + 1])

    def log_message(self, *words):
        pass


@contextmanager
def static_server(folder):
    handler = lambda *words: RangeFiles(*words, directory=str(folder))
    with http.server.ThreadingHTTPServer(("127.0.0.1", 0), handler) as server:
        threading.Thread(target=server.serve_forever, daemon=True).start()
        yield server.server_address[1]
        server.shutdown()


@contextmanager
def nginx_of(folder, room):
    """nginx as it comes, which serves a folder: yields its port."""
    with socket.socket() as free:
        free.bind(("127.0.0.1", 0))
        port = free.getsockname()[1]
    # The workers of an nginx that root starts read as another user.
    for path in [folder, *folder.parents]:
        if os.geteuid() == 0 and path != Path("/"):
            path.chmod(path.stat().st_mode | 0o755 if path == folder else path.stat().st_mode | 0o011)
    config = room / "nginx.conf"
    config.write_text(
        f"daemon off; pid {room}/pid; error_log {room}/errors;\nevents {{}}\n"
        f"http {{ access_log off; server {{ listen 127.0.0.1:{port}; root {folder}; }} }}\n"
    )
    nginx = subprocess.Popen(["nginx", "-p", str(room), "-c", str(config)], stderr=subprocess.DEVNULL)
    try:
        for _ in range(100):
            try:
                socket.create_connection(("127.0.0.1", port), 1).close()
                break
            except OSError:
                time.sleep(0.05)
        yield port
    finally:
        nginx.terminate()
        nginx.wait()


def check_static(tally, packs, folder):
    with static_server(folder) as port:
        check_answers(tally, "http.server", lambda path: f"http://127.0.0.1:{port}/{path.name}", packs)
    if shutil.which("nginx") is None:
        print("skipped: packs on nginx (there is no nginx)")
        return
    with tempfile.TemporaryDirectory() as room, nginx_of(folder, Path(room)) as port:
        check_answers(tally, "nginx", lambda path: f"http://127.0.0.1:{port}/{path.name}", packs)
        root, _ = packs[b"F", b"2"]
        check_place(tally, "no such file on nginx", root, f"http://127.0.0.1:{port}/none.pack", [DEVICE])


def check_requests(tally, root, pack):
    """What is asked for: the front of the file, once, over one connection, in just these bytes."""
    right = Outcome(ANSWER, b"", 0)
    with serving(honest(pack)) as server:
        check_place(tally, "an honest server", root, place_of(server, "/a.pack?version=2"), [right])
        host = f"127.0.0.1:{server.server_address[1]}"
        text = f"GET /a.pack?version=2 HTTP/1.1\r\nHost: {host}\r\nRange: bytes=0-65535\r\nAccept-Encoding: identity".encode()
        tally.check("one request", [head for head, _, _ in server.requests] == [text], server.requests)
        tally.check("one connection", server.connections == 1, server.connections)
    closing = lambda number, first, last: (part(pack, first, last), False)
    with serving(closing) as server:
        check_place(tally, "a server that closes", root, place_of(server), [right])


def check_refusals(tally, root, pack):
    """Servers that give no range of the file, or another one than was asked for."""
    plain = lambda status, more=b"", body=b"": (b"HTTP/1.1 %s\r\n%s\r\n%s" % (status, more, body), False)
    head = b"HTTP/1.1 206 Partial Content\r\n"
    size = len(pack)
    whole = b"Content-Range: bytes 0-%d/%d\r\nContent-Length: %d\r\n" % (size - 1, size, size)
    chunked = b"%x\r\n%s\r\n0\r\n\r\n" % (size, pack)
    answers = {
        "absent": plain(b"404 Not Found", b"Content-Length: 0\r\n"),
        "redirected": plain(b"301 Moved Permanently", b"Location: /b.pack\r\nContent-Length: 0\r\n"),
        "no ranges": plain(b"200 OK", b"Content-Length: %d\r\n" % size, pack),
        "refused": plain(b"403 Forbidden", b"Content-Length: 0\r\n"),
        "another range": (part(pack, 1, size), False),
        "a shorter range": (part(pack, 0, size - 2), False),
        "a short body": (head + whole + b"\r\n" + pack[:-1], False),
        "chunked": (head + whole + b"Transfer-Encoding: chunked\r\n\r\n" + chunked, False),
        "coded": (head + whole + b"Content-Encoding: gzip\r\n\r\n" + pack, False),
        "an endless head": (head + b"A: " + b"a" * 100_000, False),
        "a cut head": (head, False),
        "garbage": (b"\0\1\2" * 1000 + b"\r\n\r\n", False),
        "nothing": (b"", False),
        "silence": (b"", True),
    }

    def refused(it):
        name, answer = it
        with serving(lambda number, first, last: answer) as server:
            begun = time.monotonic()
            return name, run([PROGRAM, "query", root, place_of(server), QUERY]), time.monotonic() - begun

    with ThreadPoolExecutor(len(answers)) as workers:
        for name, ended, seconds in workers.map(refused, answers.items()):
            tally.check(name, ended == DEVICE, ended)
            tally.check(f"{name}: the time", seconds < 50, seconds)
    with socket.socket() as free:
        free.bind(("127.0.0.1", 0))
        check_place(tally, "nobody listens", root, f"http://127.0.0.1:{free.getsockname()[1]}/a.pack", [DEVICE])


def large_pack(folder):
    """A pack of more than 64 KiB: its root, and the file."""
    text = b"".join(b"n%d Tname=p%d x%d.5 y1\n" % (it, it, it % 90) for it in range(1, 3001))
    set_path, path = folder / "large.opl", folder / "large.pack"
    set_path.write_bytes(text)
    ended = run([PROGRAM, "pack", set_path, path])
    return ended.stdout.strip(), path, set_path


def check_large(tally, folder):
    """A pack of which more than the front is read."""
    root, path, set_path = large_pack(folder)
    pack = path.read_bytes()
    tally.check("a large pack", len(pack) > 200_000, len(pack))
    query = "node(2900);out;"
    right = run([PROGRAM, "ask", query], set_path.read_bytes())
    tally.check("the large set is asked", right.status == 0 and right.stdout != b"", right)
    with serving(honest(pack)) as server:
        check_place(tally, "more than the front", root, place_of(server), [right], query)
        tally.check("some requests", 1 < len(server.requests) < 10, len(server.requests))
        tally.check("connections are kept", server.connections <= 6, server.connections)
        bytes_asked = sum(min(last, len(pack) - 1) - first + 1 for _, first, last in server.requests)
        tally.check("few bytes", bytes_asked < 100_000, bytes_asked)
        named = run([PROGRAM, "query", root, place_of(server), "node[name=p2900];out;"])
        tally.check("by a tag", named == right, named)
    # The size is another one later.
    changed = lambda number, first, last: (part(pack, first, last, len(pack) + (number > 1)), True)
    with serving(changed) as server:
        check_place(tally, "another size later", root, place_of(server), [DEVICE], query)
    # A kept connection is closed while it is idle: the request is sent once more.
    idle = lambda number, first, last: (part(pack, first, last), number % 2 == 0)
    with serving(idle) as server:
        check_place(tally, "idle connections are closed", root, place_of(server), [right], query)
    never = lambda number, first, last: (part(pack, first, last) if number == 1 else b"", False)
    with serving(never) as server:
        check_place(tally, "closed without an answer", root, place_of(server), [DEVICE], query)
        tally.check("sent once more, and not again", len(server.requests) <= 8, len(server.requests))
    limited = run([PROGRAM, "query", root, place_of(server), query, "--max-bytes", "10"])
    tally.check("a limit of bytes", limited.status == 3 and limited.stdout == b"", limited)


def check_turned(tally, root, pack):
    """A server that turns a byte of a small pack, each in turn, gives the right answer or none."""

    def turned(at):
        other = pack[:at] + bytes([pack[at] ^ 1]) + pack[at + 1 :]
        with serving(honest(other)) as server:
            return at, run([PROGRAM, "query", root, place_of(server), QUERY])

    answered = 0
    with ThreadPoolExecutor() as workers:
        for at, ended in workers.map(turned, range(len(pack))):
            is_right = ended == Outcome(ANSWER, b"", 0)
            answered += is_right
            tally.check(f"byte {at} turned", is_right or (ended.stdout == b"" and ended.status in (1, 2, 3)), ended)
    tally.check("some are answered, and some not", 0 < answered < len(pack) - HEADER, answered)


def check_words(tally, root):
    """Places that are none."""
    for place in ["https://a.example/a.pack", "http://a.example", "http:///a.pack", "http://u@a.example/a", "http://a.example/a#b", "http://a.example/a b"]:
        ended = run([PROGRAM, "query", root, place, QUERY])
        is_refused = ended.status == 2 and ended.stdout == b"" and ended.stderr.startswith(b"error: invalid value ")
        tally.check(f"no place: {place}", is_refused, ended)


def main():
    tally = Tally()
    with tempfile.TemporaryDirectory() as room:
        folder = Path(room) / "packs"
        folder.mkdir()
        packs = packs_of(folder)
        root, path = packs[b"F", b"2"]
        pack = path.read_bytes()
        check_static(tally, packs, folder)
        check_requests(tally, root, pack)
        check_refusals(tally, root, pack)
        check_turned(tally, root, pack)
        check_large(tally, folder)
        check_words(tally, root)
    tally.end()


if __name__ == "__main__":
    main()
