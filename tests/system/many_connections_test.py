"""`serve` with many clients at a time: 64 at once and one more, clients that are silent, trickle, break off, close half,
send 2,000 requests in one piece, read 10 MB slowly or a hundred large answers that they asked for at once, each beside
others that have to be answered meanwhile."""

import socket
import struct
import tempfile
import threading
import time
from concurrent.futures import ThreadPoolExecutor
from pathlib import Path

from changes_test import response
from lines_rows_test import set_file
from runs import Outcome, Tally
from serve_test import ANSWER, all_of, root_of, server

LIMIT = 64

ROOT = root_of(b"F", b"2").encode()

ASK_ROOT = b"GET /api/root HTTP/1.1\r\n\r\n"

ASK_LAST_ROOT = b"GET /api/root HTTP/1.1\r\nConnection: close\r\n\r\n"

ASK = b"POST /api/interpreter HTTP/1.1\r\nContent-Length: 16\r\n\r\nnode(1);out ids;"

# A client that is served at once is answered within so many seconds, also on a busy machine.
AT_ONCE = 2.0

# The lines of the set of which an answer has 10 MB: some 100 bytes each.
LARGE_COUNT = 100_000

LARGE_LINE = b"n%d v1 dV c1 t2020-01-01T00:00:00Z i1 uA Thighway=crossing,name=%060d x13.4 y52.5\n"

ASK_ALL = b"POST /api/interpreter HTTP/1.1\r\nContent-Length: 14\r\n\r\nnode;out meta;"


def answered(connection, request, body):
    """Whether the connection answers the request with this body, and in how many seconds."""
    begun = time.monotonic()
    connection.sendall(request)
    with connection.makefile("rb") as file:
        head, got = response(file)
    return head[:1] == [b"HTTP/1.1 200 OK"] and got == body, time.monotonic() - begun


def check_at_once(tally, name, running, request=ASK, body=ANSWER):
    """A client that comes now is answered at once."""
    with running.connect() as connection:
        holds, took = answered(connection, request, body)
        tally.check(name, holds and took < AT_ONCE, holds, took)


def broken_off(connection):
    """Ends a connection so that the other side sees a reset."""
    connection.setsockopt(socket.SOL_SOCKET, socket.SO_LINGER, struct.pack("ii", 1, 0))
    connection.close()


def check_limit(tally):
    """64 clients at once are answered in any order. Where one more comes, the one that has been silent longest makes room."""
    with server(set_file(b"F"), "--connections", LIMIT + 1) as running:
        clients = [running.connect() for _ in range(LIMIT)]
        for number, client in reversed(list(enumerate(clients))):
            holds, took = answered(client, ASK, ANSWER)
            tally.check(f"client {number} of {LIMIT}", holds and took < AT_ONCE, holds, took)
        # All but the seventh say something again, so that one has been silent longest.
        for number, client in enumerate(clients):
            if number != 7:
                tally.check(f"client {number} again", answered(client, ASK_ROOT, ROOT + b"\n")[0])
        check_at_once(tally, "one more", running)
        tally.check("the one that was silent longest is let go", all_of(clients[7]) == b"")
        for number, client in enumerate(clients):
            if number != 7:
                tally.check(f"client {number} stays", answered(client, ASK_LAST_ROOT, ROOT + b"\n")[0])
                tally.check(f"client {number} ends", all_of(client) == b"")
            client.close()
        outcome = running.ended()
        tally.check("64 and one more", outcome == Outcome(b"", b"G1\n", 0), outcome)


def check_silent(tally):
    """63 silent clients hold nobody up, and are let go after ten seconds."""
    with server(set_file(b"F"), "--connections", LIMIT + 20) as running:
        silent = [running.connect() for _ in range(LIMIT - 1)]
        begun = time.monotonic()
        for number in range(10):
            check_at_once(tally, f"beside {LIMIT - 1} silent clients, {number}", running)
        told = [all_of(client) for client in silent]
        took = time.monotonic() - begun
        tally.check("they are let go after ten seconds", told == [b""] * len(silent) and 9 < took < 16, took)
        for number in range(11):
            check_at_once(tally, f"after the silent clients, {number}", running)
        outcome = running.ended()
        tally.check("each is told", outcome == Outcome(b"", b"G1\n" * len(silent), 0), outcome)


def check_trickling(tally):
    """A client that sends a byte now and then keeps its place as long as its request is complete within a minute."""
    with server(set_file(b"F"), "--connections", 4) as running:
        with running.connect() as slow, running.connect() as endless:
            begun = time.monotonic()
            for number, byte in enumerate(ASK):
                slow.sendall(bytes([byte]))
                if number % 5 == 0:
                    endless.sendall(b"x")
                time.sleep(20 / len(ASK))
            with slow.makefile("rb") as file:
                tally.check("a request in 20 seconds", response(file)[1] == ANSWER)
            check_at_once(tally, "beside clients that trickle", running)
            slow.close()
            try:
                while time.monotonic() - begun < 75:
                    endless.sendall(b"x")
                    time.sleep(1)
            except (BrokenPipeError, ConnectionResetError):
                pass
            took = time.monotonic() - begun
            tally.check("one that isn't complete within a minute is let go", 59 < took < 70, took)
        check_at_once(tally, "after a client that trickled", running, ASK_LAST_ROOT, ROOT + b"\n")
        outcome = running.ended()
        tally.check("the one that trickled is told", outcome == Outcome(b"", b"G1\n", 0), outcome)


def check_broken(tally):
    """Clients that break off, in the middle of a request or with an answer unread, leave the others, and nothing of them
    stays open."""
    with server(set_file(b"F"), "--connections", 302) as running, running.connect() as kept:
        tally.check("before any breaks off", answered(kept, ASK, ANSWER)[0])
        before = running.descriptors()
        for number in range(300):
            broken = running.connect()
            if number % 2 == 0:
                broken.sendall(ASK[: number % (len(ASK) - 1) + 1])
            else:
                broken.sendall(ASK * 50)
                if number % 3 == 0:
                    broken.recv(1)
            broken_off(broken)
        check_at_once(tally, "after clients that broke off", running)
        tally.check("the kept one stays", answered(kept, ASK, ANSWER)[0])
        for _ in range(50):
            if running.descriptors() <= before:
                break
            time.sleep(0.1)
        tally.check("no descriptor stays open", running.descriptors() <= before, running.descriptors(), before)
        tally.check("the kept one ends", answered(kept, ASK_LAST_ROOT, ROOT + b"\n")[0])
        outcome = running.ended()
        is_told = set(outcome.stderr.split()) <= {b"G1", b"G2"}
        tally.check("those that broke off", (outcome.stdout, outcome.status, is_told) == (b"", 0, True), outcome)


def check_half_closed(tally):
    """A client that closes its side with its requests gets all answers, and then the end."""
    with server(set_file(b"F"), "--connections", 3) as running:
        for count in (1, 2, 100):
            with running.connect() as connection:
                connection.sendall(ASK * count)
                connection.shutdown(socket.SHUT_WR)
                got = all_of(connection)
                tally.check(f"half closed after {count}", got.count(b"HTTP/1.1 200 OK") == count and got.endswith(ANSWER), got[-200:])
        outcome = running.ended()
        tally.check("half closed ends", outcome == Outcome(b"", b"", 0), outcome)


def check_pipelined(tally):
    """2,000 requests in one send have 2,000 answers, in order, also beside others that do the same."""

    def pipelined(running):
        with running.connect() as connection, connection.makefile("rb") as file:
            with ThreadPoolExecutor(1) as sender:
                sending = sender.submit(connection.sendall, (ASK + ASK_ROOT) * 1000)
                got = [response(file)[1] for _ in range(2000)]
                sending.result()
            return got == [ANSWER, ROOT + b"\n"] * 1000

    with server(set_file(b"F"), "--connections", 9) as running:
        with ThreadPoolExecutor(8) as clients:
            right = list(clients.map(pipelined, [running] * 8))
        tally.check("2,000 requests in one send, eight times", right == [True] * 8, right)
        tally.check("memory of pipelined requests", running.peak_kib() < 64 * 1024, running.peak_kib())
        check_at_once(tally, "after pipelined requests", running)
        outcome = running.ended()
        tally.check("pipelined ends", outcome == Outcome(b"", b"", 0), outcome)


def take_tardily(client, is_over):
    """Takes some 20 KB a second until it is over, or nothing more comes."""
    try:
        while not is_over.is_set() and client.recv(2048):
            time.sleep(0.1)
    except ConnectionResetError:
        pass


def check_large(tally):
    """A client that reads 10 MB slowly gets all of it, and others are answered meanwhile. One that reads nothing is let go, and
    so is one that reads less than 1 MiB in ten seconds, though it never is silent."""
    with tempfile.TemporaryDirectory() as room:
        file = Path(room) / "large.opl"
        text = b"".join(LARGE_LINE % (number, number) for number in range(1, LARGE_COUNT + 1))
        file.write_bytes(text)
        with server(file, "--connections", 43) as running, ThreadPoolExecutor(1) as worker:
            at_first, is_over = running.descriptors(), threading.Event()
            with running.connect() as slow, running.connect() as stuck, running.connect() as tardy:
                for client in (slow, stuck, tardy):
                    client.setsockopt(socket.SOL_SOCKET, socket.SO_RCVBUF, 1 << 16)
                tardy.sendall(ASK_ALL)
                begun = time.monotonic()
                taking = worker.submit(take_tardily, tardy, is_over)
                stuck.sendall(ASK_ALL)
                slow.sendall(ASK_ALL)
                parts = []
                for number in range(40):
                    parts.append(slow.recv(1 << 16))
                    check_at_once(tally, f"beside a slow reader, {number}", running)
                    time.sleep(0.3)
                with slow.makefile("rb") as rest:
                    slow.shutdown(socket.SHUT_WR)
                    parts.append(rest.read())
                _, _, body = b"".join(parts).partition(b"\r\n\r\n")
                tally.check("10 MB, read slowly", body == text, len(body), len(text))
                # It has taken nothing for longer than ten seconds.
                got = all_of(stuck)
                tally.check("one that takes nothing is let go", len(got) < len(text), len(got))
                slow.close()
                stuck.close()
                while running.descriptors() > at_first and time.monotonic() - begun < 90:
                    time.sleep(0.2)
                took = time.monotonic() - begun
                is_over.set()
                taking.result()
                # (what the system holds for the client counts as taken: ten seconds more for each MiB)
                tally.check("one that takes too little is let go", 9 < took < 85, took)
            outcome = running.ended()
            tally.check("both are told", outcome == Outcome(b"", b"G2\nG2\n", 0), outcome)


def check_burst(tally):
    """A client that sends a hundred requests at once, each of which has an answer of 5 MB, and reads slowly: the server
    holds no more than for a client that asks once."""
    count, answer = 100, b"".join(LARGE_LINE % (number, number) for number in range(1, LARGE_COUNT // 2 + 1))
    with tempfile.TemporaryDirectory() as room:
        file = Path(room) / "large.opl"
        file.write_bytes(answer)
        with server(file, "--connections", 2) as running:
            with running.connect() as connection:
                tally.check("one answer of 5 MB", answered(connection, ASK_ALL, answer)[0])
            for_one = running.peak_kib()
            with running.connect() as connection, ThreadPoolExecutor(1) as sender:
                connection.setsockopt(socket.SOL_SOCKET, socket.SO_RCVBUF, 1 << 16)
                sending = sender.submit(connection.sendall, ASK_ALL * count)
                sent = b"HTTP/1.1 200 OK"
                heads, length, tail = 0, 0, b""
                while heads < count or not tail.endswith(answer[-64:]):
                    part = connection.recv(1 << 16)
                    if not part:
                        break
                    # (a head may begin in one part and end in the next)
                    heads += (tail[-len(sent) + 1 :] + part).count(sent)
                    length += len(part)
                    tail = (tail + part)[-64:]
                    time.sleep(0.002)
                sending.result()
            for_all = running.peak_kib()
            whole = heads == count and length > count * len(answer)
            tally.check("a hundred answers of 5 MB, read slowly", whole, heads, length)
            tally.check("memory of one answer at a time", for_all - for_one < len(answer) // 2048, for_one, for_all)
            outcome = running.ended()
            tally.check("a burst ends", outcome == Outcome(b"", b"", 0), outcome)


def main():
    tally = Tally()
    # Most of them wait most of the time.
    checks = [check_trickling, check_silent, check_large, check_burst, check_limit, check_broken, check_half_closed, check_pipelined]
    with ThreadPoolExecutor(len(checks)) as workers:
        for done in [workers.submit(check, tally) for check in checks]:
            done.result()
    tally.end()


if __name__ == "__main__":
    main()
