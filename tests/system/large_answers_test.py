"""An answer and a proof of more than 64 MiB each are served whole, and the server holds the answer once: it isn't copied
to be written."""

import socket
import tempfile
from pathlib import Path

from changes_test import response
from many_connections_test import ASK_ALL
from runs import PROGRAM, Outcome, Tally, run
from serve_test import server

MIB = 1 << 20

# An answer of more bytes than this is moved to its response.
LARGE = 64 * MIB

# The nodes of the set, each with a line of some 256 KB: an answer of 96 MiB. (A value has at most 4,096 bytes.)
COUNT = 392

TAGS = b",".join(b"key%02d=" % number + b"v" * 4000 for number in range(64))

LINE = b"n%d v1 dV c1 t2020-01-01T00:00:00Z i1 uA T%b x13.4 y52.5\n"

QUERY = b"node;out meta;"

ASK_ALL_CHECKED = b"POST /api/checked HTTP/1.1\r\nContent-Length: 14\r\n\r\n" + QUERY


def forget_peak(running):
    """From now on the most memory that it had is counted anew, where the system can do that."""
    try:
        Path(f"/proc/{running.process.pid}/clear_refs").write_text("5", encoding="ascii")
    except OSError:
        pass


def taken(running, request):
    """The status line and the body of the response to a request, of a client whose socket takes little at once."""
    with running.connect() as connection:
        connection.setsockopt(socket.SOL_SOCKET, socket.SO_RCVBUF, 1 << 16)
        connection.sendall(request)
        with connection.makefile("rb") as file:
            head, body = response(file)
    return head[:1], body


def main():
    tally = Tally()
    text = b"".join(LINE % (number, TAGS) for number in range(1, COUNT + 1))
    tally.check("the answer is large", len(text) > LARGE, len(text))
    with tempfile.TemporaryDirectory() as room:
        file, query, answer, proof = (Path(room) / name for name in ("set.opl", "query", "answer", "proof"))
        file.write_bytes(text)
        query.write_bytes(QUERY)
        asked = run([PROGRAM, "ask", QUERY], text)
        tally.check("ask", asked == Outcome(text, b"", 0), asked.stderr, len(asked.stdout))
        published = run([PROGRAM, "prove", file, query, answer, proof])
        proof_bytes = proof.read_bytes()
        tally.check("prove", published.status == 0 and answer.read_bytes() == text, published)
        tally.check("the proof is large", len(proof_bytes) > LARGE, len(proof_bytes))
        root = bytes.fromhex(published.stdout.decode().strip())
        with server(file, "--connections", 3) as running:
            forget_peak(running)
            before = running.peak_kib()
            status, body = taken(running, ASK_ALL)
            more = running.peak_kib() - before
            tally.check("the answer is served whole", (status, body == text) == ([b"HTTP/1.1 200 OK"], True), status, len(body))
            # (what an answer had when it was shorter may still count: 32 MiB and 16 MiB of its growth)
            tally.check("the answer is held once", more * 1024 < len(text) * 7 // 4, more, len(text))
            status, body = taken(running, ASK_ALL_CHECKED)
            whole = root + len(text).to_bytes(8, "big") + text + proof_bytes
            tally.check("and so is its proof", (status, body == whole) == ([b"HTTP/1.1 200 OK"], True), status, len(body))
            # The server goes on, with less memory than for another answer.
            status, body = taken(running, b"GET /api/root HTTP/1.1\r\nConnection: close\r\n\r\n")
            tally.check("the next request", (status, body) == ([b"HTTP/1.1 200 OK"], root.hex().encode() + b"\n"), status, body)
            outcome = running.ended()
            tally.check("it ends", outcome == Outcome(b"", b"", 0), outcome)
    tally.end()


if __name__ == "__main__":
    main()
