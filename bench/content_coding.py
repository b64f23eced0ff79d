"""Bytes of responses, plain and compressed, and nginx's processor time for them (see content_coding.sh):
content_coding.py FILE ROUNDS BOX TAG TAG."""

import gzip
import http.client
import socket
import statistics
import subprocess
import sys
import tempfile
import threading
import time
import zlib
from contextlib import contextmanager
from http.server import BaseHTTPRequestHandler, ThreadingHTTPServer
from pathlib import Path

from serve import PROGRAM, processor_seconds

TOP = Path(__file__).resolve().parents[1]
sys.path.insert(0, str(TOP / "tests/system"))
# pylint: disable=wrong-import-position
from lying_mirror import parts_of
from serve_test import nginx_before

# What nginx sends in a round, so that its processor time can be read off a clock of hundredths of a second.
BYTES_A_ROUND = 30_000_000


@contextmanager
def nginx(mirror):
    """nginx with the example's configuration before this port, and a port of it without TLS, so that TLS takes no time; and
    the processes that answer."""
    with socket.create_server(("127.0.0.1", 0)) as free:
        port = free.getsockname()[1]
    with tempfile.TemporaryDirectory() as folder:
        room = Path(folder)
        room.chmod(0o755)
        changes = [
            (" ssl;", f" ssl;\n        listen 127.0.0.1:{port};"),
            # This client asks more often than others may.
            ("rate=100r/s", "rate=10000r/s"),
        ]
        with nginx_before((mirror, mirror), room, *changes):
            master = int((room / "nginx.pid").read_text(encoding="ascii"))
            stats = [(int(it.parent.name), it.read_text(encoding="ascii")) for it in Path("/proc").glob("[0-9]*/stat")]
            yield port, [process for process, stat in stats if int(stat.rpartition(")")[2].split()[1]) == master]


def got(port, path, query, *codings):
    """The body of the response to a query, as it came, and its coding."""
    client = http.client.HTTPConnection("127.0.0.1", port, timeout=600)
    client.putrequest("POST", f"/api/{path}", skip_accept_encoding=True)
    for name, value in [("Content-Length", len(query)), *(("Accept-Encoding", coding) for coding in codings)]:
        client.putheader(name, value)
    client.endheaders(query.encode())
    response = client.getresponse()
    body = response.read()
    client.close()
    if response.status != 200:
        sys.exit(f"{response.status} {body[:200]}")
    return body, response.headers["Content-Encoding"]


def compared(plain, packed):
    return f"{len(plain):,} bytes, compressed {len(packed):,}, {len(plain) / len(packed):.2f} times fewer"


def tell_sizes(port, name, query):
    """Prints the bytes of the responses to a query. Gives the one with a proof, as it is and compressed."""
    for path in ("interpreter", "checked"):
        plain, coding = got(port, path, query)
        assert coding is None, coding
        packed, coding = got(port, path, query, "gzip")
        assert (gzip.decompress(packed) if coding else packed) == plain, (name, path)
        print(f"{name}, /api/{path}: {compared(plain, packed)}" + ("" if coding else " (too small to be compressed)"), flush=True)
    checked = parts_of(plain)
    print(f"{name}, {len(checked.answer.splitlines()):,} objects, the proof alone by zlib: "
          f"{compared(checked.proof, zlib.compress(checked.proof, 5))}", flush=True)
    return plain, packed


@contextmanager
def said_again(body):
    """The port of a server that gives this body to each request."""

    class Handler(BaseHTTPRequestHandler):
        protocol_version = "HTTP/1.1"
        disable_nagle_algorithm = True
        wbufsize = -1

        def log_message(self, *words):
            pass

        def do_POST(self):
            self.rfile.read(int(self.headers["Content-Length"]))
            self.send_response(200)
            self.send_header("Content-Type", "application/octet-stream")
            self.send_header("Content-Length", str(len(body)))
            self.end_headers()
            self.wfile.write(body)

    serving = ThreadingHTTPServer(("127.0.0.1", 0), Handler)
    serving.daemon_threads = True
    threading.Thread(target=serving.serve_forever, daemon=True).start()
    try:
        yield serving.server_port
    finally:
        serving.shutdown()
        serving.server_close()


def of_nginx(port, workers, times, coding):
    """nginx's processor seconds for a response that is asked for so many times."""
    before = sum(map(processor_seconds, workers))
    for _ in range(times):
        got(port, "checked", "", coding)
    return sum(map(processor_seconds, workers)) - before


def of_client(packed, times):
    """The processor seconds of unpacking a response so many times."""
    before = time.process_time()
    for _ in range(times):
        zlib.decompress(packed, wbits=31)
    return time.process_time() - before


def tell_time(name, body, packed, rounds):
    """Prints nginx's processor time for a MB of what the mirror sends, and that of a client to unpack it."""
    times = max(1, BYTES_A_ROUND // len(body))
    taken = {"nginx, plain": [], "nginx, compressed": [], "a client that unpacks": []}
    with said_again(body) as mirror, nginx(mirror) as (port, workers):
        for _ in range(rounds):
            taken["nginx, plain"].append(of_nginx(port, workers, times, "identity"))
            taken["nginx, compressed"].append(of_nginx(port, workers, times, "gzip"))
            taken["a client that unpacks"].append(of_client(packed, times))
    print(f"{name}, processor time a MB of {len(body):,} bytes:")
    for who, seconds in taken.items():
        least, middle, most = (it * 1e9 / (times * len(body)) for it in (min(seconds), statistics.median(seconds), max(seconds)))
        print(f"  {who}: {middle:.1f} ms ({least:.1f} to {most:.1f})", flush=True)


def main():
    file, rounds, box, *tags = sys.argv[1:]
    queries = {"an id": "node(4998);out;", "a box": f"node({box});out;"}
    queries |= {f"[{tag}]": f"nwr[{tag}];out;" for tag in tags}
    mirror = subprocess.Popen([PROGRAM, "serve", file, "0"], bufsize=0, stderr=subprocess.PIPE)
    line = mirror.stderr.readline().decode()
    print(line.strip(), flush=True)
    try:
        with nginx(int(line.split(",")[0].rpartition(":")[2])) as (port, _):
            bodies = {name: tell_sizes(port, name, query) for name, query in queries.items()}
    finally:
        mirror.kill()
        mirror.wait()
    del bodies["an id"]  # (so small that its time is that of the request)
    for name, (body, packed) in bodies.items():
        tell_time(name, body, packed, int(rounds))


if __name__ == "__main__":
    main()
