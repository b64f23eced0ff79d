"""A mirror that lies, between a page and a real mirror: what it says depends on the path before /api/.

    http://127.0.0.1:PORT/LIE/api/checked

`honest` passes the real mirror's answer on; LIES has what else it may say.
"""

import threading
import urllib.error
import urllib.request
from contextlib import contextmanager
from http.server import BaseHTTPRequestHandler, ThreadingHTTPServer
from typing import NamedTuple
from urllib.parse import parse_qs, quote

import trees


class Checked(NamedTuple):
    """The parts of a body of /api/checked."""

    root: bytes
    answer: bytes
    proof: bytes

    def body(self):
        return self.root + len(self.answer).to_bytes(8, "big") + self.answer + self.proof


def parts_of(body):
    length = int.from_bytes(body[32:40], "big")
    return Checked(body[:32], body[40:40 + length], body[40 + length:])


def nodes_of(proof):
    """The nodes that a proof lists."""
    nodes, at = [], 9
    while at < len(proof):
        size = int.from_bytes(proof[at:at + 4], "big")
        nodes.append(proof[at + 4:at + 4 + size])
        at += 4 + size
    return nodes


def listing(nodes):
    """A proof that lists these nodes in this order."""
    return b"OSMP\x01" + len(nodes).to_bytes(4, "big") + b"".join(len(it).to_bytes(4, "big") + it for it in nodes)


def flipped(text, at):
    return text[:at] + bytes([text[at] ^ 1]) + text[at + 1:]


def with_more(checked, more):
    return checked._replace(proof=trees.proof_of([*nodes_of(checked.proof), *nodes_of(more.proof)]))


def by_hand(top):
    """What is said over trees that nobody publishes: an object tree with this top, and three trees without entries."""
    tops = [top, *(bytes([tree, 0, 0, 0]) for tree in (2, 3, 4))]
    manifest = b"OSMM\x01" + b"".join(trees.digest(it) for it in tops)
    return Checked(trees.digest(manifest), b"", trees.proof_of([top, manifest]))


LINE_OF_2 = b"n2 v0 dV c0 t i0 u T x0 y0"

# What a lie makes of the right answer, and of the mirror's answer to an other query, which needs other nodes.
LIES = {
    "honest": lambda right, other: right,
    "answer-byte": lambda right, other: right._replace(answer=flipped(right.answer, 7)),
    "answer-cut": lambda right, other: right._replace(answer=right.answer[:-1]),
    "answer-longer": lambda right, other: right._replace(answer=right.answer + b"n1\n"),
    "answer-empty": lambda right, other: right._replace(answer=b""),
    "other-query": lambda right, other: other,
    "other-root": lambda right, other: right._replace(root=bytes(32)),
    "proof-byte": lambda right, other: right._replace(proof=flipped(right.proof, 60)),
    "proof-cut": lambda right, other: right._replace(proof=right.proof[:-1]),
    "proof-empty": lambda right, other: right._replace(proof=b""),
    "node-left-out": lambda right, other: right._replace(proof=listing(nodes_of(right.proof)[:-1])),
    "nodes-swapped": lambda right, other: right._replace(proof=listing(nodes_of(right.proof)[::-1])),
    "node-added": with_more,
    "malformed-tree": lambda right, other: by_hand(b"nothing of the form of a node"),
    "other-tree": lambda right, other: by_hand(trees.leaf(2, [])),
    "other-entry": lambda right, other: by_hand(trees.leaf(1, [(trees.reference("n1"), LINE_OF_2)])),
}

# The root under which a lie is told, where it is none of a publication.
ROOTS = {
    name: LIES[name](None, None).root.hex() for name in ("malformed-tree", "other-tree", "other-entry")
}

# Answers that are none.
STATUSES = {
    "not-found": (404, b"not found\n"),
    "too-large": (413, b"too large\n"),
    "too-many": (429, b"<html>slow down</html>"),
    "bad-gateway": (502, b"<html>bad gateway</html>"),
    "no-memory": (503, b"no memory\n"),
    "too-much-work": (503, b"too much work\n"),
    "garbage": (200, b"this is no answer"),
    "short": (200, bytes(32) + (1 << 40).to_bytes(8, "big") + b"n1\n"),
}


def asked(mirror, query):
    """The status and body of the real mirror's answer."""
    try:
        with urllib.request.urlopen(f"{mirror}/api/checked?data={quote(query)}", timeout=60) as response:
            return response.status, response.read()
    except urllib.error.HTTPError as error:
        return error.code, error.read()


@contextmanager
def lying_mirror(mirror, other_query):
    """The address of a mirror that lies about what the mirror at this address says; ended with the block."""

    class Handler(BaseHTTPRequestHandler):
        protocol_version = "HTTP/1.1"

        def log_message(self, *words):
            pass

        def say(self, status, body, declared=None):
            self.send_response(status)
            self.send_header("Content-Type", "application/octet-stream")
            if not self.path.startswith("/closed/"):
                self.send_header("Access-Control-Allow-Origin", "*")
            self.send_header("Content-Length", str(len(body) if declared is None else declared))
            self.end_headers()
            self.wfile.write(body)

        def do_GET(self):
            self.say(200, b"0" * 64 + b"\n")

        def do_POST(self):
            form = self.rfile.read(int(self.headers["Content-Length"])).decode()
            query = parse_qs(form, keep_blank_values=True)["data"][0]
            lie = self.path.split("/")[1]
            if lie in STATUSES:
                return self.say(*STATUSES[lie])
            status, body = asked(mirror, query)
            if status != 200 and lie == "refused-answered":
                status, body = asked(mirror, other_query)
            if status == 200 and self.path.endswith("/interpreter"):
                return self.say(status, parts_of(body).answer)
            if status != 200 or lie in ("closed", "refused-answered"):
                return self.say(status, body)
            if lie == "broken-off":
                self.close_connection = True
                return self.say(200, body[:100], declared=len(body))
            other = parts_of(asked(mirror, other_query)[1])
            return self.say(200, LIES[lie](parts_of(body), other).body())

    serving = ThreadingHTTPServer(("127.0.0.1", 0), Handler)
    serving.daemon_threads = True
    thread = threading.Thread(target=serving.serve_forever, daemon=True)
    thread.start()
    try:
        yield f"http://127.0.0.1:{serving.server_port}"
    finally:
        serving.shutdown()
        serving.server_close()

