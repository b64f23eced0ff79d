"""Times of queries through a relay and of the mirror alone (see relay.sh): relay.py FILE REQUESTS."""

import socket
import statistics
import subprocess
import sys
import time
from urllib.parse import quote

from serve import PROGRAM, processor_seconds

QUERIES = [
    ("an id", "node(4998);out;", 1),
    ("a box", "node(51.99,12.99,52.01,13.01);out;", 10),
    ("a tag", 'nwr["name"="Weg"];out;', 100),
]
ROUNDS = 5


def started(*words):
    """A server, its port, and the end of its first line: for a mirror the root."""
    running = subprocess.Popen([PROGRAM, *words], bufsize=0, stderr=subprocess.PIPE)
    line = running.stderr.readline().decode()
    return running, int(line.split(",")[0].rpartition(":")[2]), line.split()[-1]


def got(port, path, query):
    """The seconds of a query over a connection of its own, and the length of the response."""
    begun = time.perf_counter()
    with socket.create_connection(("127.0.0.1", port), timeout=120) as connection:
        connection.setsockopt(socket.IPPROTO_TCP, socket.TCP_NODELAY, 1)
        request = f"GET /api/{path}?data={quote(query, safe='')} HTTP/1.1\r\nHost: h\r\nConnection: close\r\n\r\n"
        connection.sendall(request.encode())
        length, head = 0, b""
        while part := connection.recv(1 << 18):
            head = head or part
            length += len(part)
    if not head.startswith(b"HTTP/1.1 200"):
        sys.exit(head.decode(errors="replace"))
    return time.perf_counter() - begun, length


def main():
    file, count = sys.argv[1], int(sys.argv[2])
    mirror, mirror_port, root = started("serve", file, "0")
    relay, relay_port, _ = started("relay", root, f"127.0.0.1:{mirror_port}", "0")
    for name, query, share in QUERIES:
        for form in ("json", "xml"):
            asked = {"mirror": (mirror_port, "checked", query), "relay": (relay_port, "interpreter", f"[out:{form}];{query}")}
            times, lengths, own = {}, {}, {}
            for _ in range(ROUNDS):
                for who, words in asked.items():
                    before = [processor_seconds(process.pid) for process in (mirror, relay)]
                    taken = [got(*words) for _ in range(max(1, count // share // ROUNDS))]
                    after = [processor_seconds(process.pid) for process in (mirror, relay)]
                    times.setdefault(who, []).extend(seconds for seconds, _ in taken)
                    own[who] = [(b - a) / len(taken) * 1000 for a, b in zip(before, after)]
                    lengths[who] = taken[0][1]
            mid = {who: statistics.median(taken) * 1000 for who, taken in times.items()}
            print(
                f"{name}, {form}: mirror {mid['mirror']:.2f} ms ({lengths['mirror']:,} bytes), relay {mid['relay']:.2f} ms "
                f"({lengths['relay']:,} bytes), {mid['relay'] / mid['mirror']:.2f} times; processor time through the relay: "
                f"mirror {own['relay'][0]:.2f} ms, relay {own['relay'][1]:.2f} ms"
            )
    for process in (relay, mirror):
        process.kill()
        process.wait()


if __name__ == "__main__":
    main()
