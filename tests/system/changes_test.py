"""`serve --changes DIR` over loopback sockets: change files that come while a mirror serves, files that are refused, refused
allocations, and a soak: 100,000 requests while 1,000 change files come, each answer checked."""

import os
import random
import shutil
import tempfile
import time
from concurrent.futures import ThreadPoolExecutor
from contextlib import contextmanager
from itertools import chain, count
from pathlib import Path
from threading import Lock

from lines_rows_test import set_file
from runs import PROGRAM, Outcome, Tally, built_library, run
from serve_test import root_of, server, told

ROOT_REQUEST = b"GET /api/root HTTP/1.1\r\nConnection: close\r\n\r\n"

DELETE_WAY = b"w10 v2 dD\n"

CONNECTIONS, AT_A_TIME, REQUESTS, BATCH = 1_000, 64, 100, 10

QUERIES = [b"node(1);out;", b'node["k"="v1"];out;', b"way(bn);out ids;", b"node(50,10,50.1,10.1);way(bn);out;"]


def published(file, sequence):
    """The root of a set at a sequence, built from nothing by a publisher."""
    outcome = run([PROGRAM, "publish", file, "--sequence", str(sequence)])
    return outcome.stdout.strip()


def root_at(running):
    """The root that the next connection is told."""
    got = told(running, [ROOT_REQUEST])
    return got.rsplit(b"\r\n\r\n", 1)[-1].strip()


@contextmanager
def folders():
    """A folder of change files, and one in which they are made ready."""
    with tempfile.TemporaryDirectory() as room:
        changes, ready = Path(room) / "changes", Path(room) / "ready"
        changes.mkdir()
        ready.mkdir()
        yield changes, ready


def put(file, text, ready):
    """Puts a file where the mirror looks for it, whole from the first moment on: it looks four times a second."""
    (ready / "next").write_bytes(text)
    (ready / "next").rename(file)


def without(text, start):
    """A set without the lines that begin so."""
    return b"".join(line for line in text.splitlines(keepends=True) if not line.startswith(start))


def check_files(tally):
    """Files that come while a mirror serves: the next connection has the changed set; refused ones are told once, and
    stay."""
    with folders() as (changes, ready):
        whole = set_file(b"F").read_bytes()
        first, second = ready / "first.opl", ready / "second.opl"
        first.write_bytes(without(whole, b"w10 "))
        second.write_bytes(without(first.read_bytes(), b"n1 "))
        roots = [published(set_file(b"F"), 0), published(first, 1), published(second, 2)]
        with server(set_file(b"F"), "--connections", 13, "--changes", changes) as running:
            tally.check("begins with the set", root_at(running) == roots[0] and roots[0] == root_of(b"F", b"2").encode())
            put(changes / "1.opl", DELETE_WAY, ready)
            got = told(running, [b"POST /api/interpreter HTTP/1.1\r\nConnection: close\r\nContent-Length: 24\r\n\r\n"
                                 b"node(1);way(bn);out ids;"])
            want = b"Content-Length: 0\r\nOsm-Root: " + roots[1] + b"\r\nConnection: close\r\n\r\n"
            tally.check("the way is gone", got.startswith(b"HTTP/1.1 200 ") and got.endswith(want), got)
            lines = []
            for text, line in [
                (DELETE_WAY, b"I2 w10\n"),
                (b"n3 x1 y1\nn1 x13.4\n", b"O9 line 2 byte 8\n"),
                (b"n1 x1 y1\nn1 dD\nc5\n", b"O1 line 3 byte 0\n"),
                (b"n1 dD\n\nn1 q dD", b"O3 line 3 byte 3\n"),
                (b"n1 dD q\nc5\n", b"O3 line 1 byte 6\n"),
                (b"n1 x1\nn2 dD\n", b"O9 line 1 byte 5\n"),
                (b"n5 x0 y0\nn5 dD\n", b"I3 n5\n"),
                (None, b"device\n"),
            ]:
                file = changes / "2.opl"
                if text is None:
                    file.unlink()
                    file.mkdir()
                else:
                    put(file, text, ready)
                tally.check(f"after {line}", root_at(running) == roots[1])
                lines.append(line)
            (changes / "2.opl").rmdir()
            tally.check("no file", root_at(running) == roots[1])
            put(changes / "2.opl", b"n1 v3 dD\n", ready)
            tally.check("the mended file", root_at(running) == roots[2])
            put(changes / "3.opl", b"n99 dD\n", ready)
            tally.check("one more", root_at(running) == roots[2])
            outcome = running.ended()
            want = Outcome(b"", b"".join(lines) + b"I2 n99\n", 0)
            tally.check("refused files are told", outcome == want, outcome)


def check_kept(tally):
    """A kept connection is answered over a change file that comes meanwhile, though nobody else comes; a refused file is
    told once, however often it is looked for."""
    with folders() as (changes, ready):
        (ready / "set.opl").write_bytes(without(set_file(b"F").read_bytes(), b"w10 "))
        roots = [root_of(b"F", b"2").encode(), published(ready / "set.opl", 1)]
        with server(set_file(b"F"), "--connections", 1, "--changes", changes) as running, running.connect() as connection:
            file = connection.makefile("rb")

            def asked():
                connection.sendall(b"GET /api/root HTTP/1.1\r\n\r\n")
                return response(file)[1].strip()

            tally.check("a kept connection", asked() == roots[0])
            put(changes / "1.opl", b"n99 dD\n", ready)
            time.sleep(1)
            tally.check("a kept connection and a refused file", asked() == roots[0])
            put(changes / "1.opl", DELETE_WAY, ready)
            time.sleep(1)
            tally.check("a kept connection and a change file", asked() == roots[1])
            connection.close()
            file.close()
            outcome = running.ended()
            tally.check("a kept connection ends", outcome == Outcome(b"", b"I2 n99\n", 0), outcome)


def bytes_read(running):
    """How many bytes the process has read so far, of files and sockets."""
    text = Path(f"/proc/{running.process.pid}/io").read_text(encoding="ascii")
    return next(int(line.split()[1]) for line in text.splitlines() if line.startswith("rchar:"))


def check_unread(tally):
    """A named pipe in place of a change file holds nobody up, and is told once. A file that was refused isn't read again
    until it has changed, though it is looked for four times a second: it is written anew in place, with as many bytes."""
    with folders() as (changes, ready):
        (ready / "set.opl").write_bytes(without(set_file(b"F").read_bytes(), b"w10 "))
        roots = [root_of(b"F", b"2").encode(), published(ready / "set.opl", 1)]
        with server(set_file(b"F"), "--connections", 3, "--changes", changes) as running:
            os.mkfifo(changes / "1.opl")
            begun = time.monotonic()
            tally.check("a named pipe", root_at(running) == roots[0] and time.monotonic() - begun < 2)
            time.sleep(0.6)
            refused = b"w11 v2 dD\n" + b"#" * 100_000 + b"\n"
            put(changes / "1.opl", refused, ready)
            time.sleep(0.6)
            before = bytes_read(running)
            time.sleep(1.2)
            read = bytes_read(running) - before
            tally.check("a refused file is read once", root_at(running) == roots[0] and read < 100_000, read)
            with open(changes / "1.opl", "r+b") as file:
                file.write(DELETE_WAY)
            time.sleep(0.6)
            tally.check("a file that was mended in place", root_at(running) == roots[1])
            outcome = running.ended()
            tally.check("each is told once", outcome == Outcome(b"", b"device\nI2 w11\n", 0), outcome)


def check_osmium(tally):
    """A change file as `osmium derive-changes` (1.15) writes it of two extracts: the root is that of the newer one."""
    moved, kept = b"n1 v2 dV c0 t i0 u Thighway=bus_stop x13.4 y52.5\n", b"n2 v1 dV c0 t i0 u T x13.4000001 y52.5\n"
    came = b"n4 v1 dV c0 t i0 u T x2 y2\n"
    old = b"n1 v1 dV c0 t i0 u Thighway=crossing x13.4 y52.5\n" + kept + b"n3 v1 dV c0 t i0 u T x1 y1\n"
    new = moved + kept + came
    written = moved + b"n3 v1 dD c0 t i0 u T x y\n" + came
    with folders() as (changes, ready):
        for name, text in (("old.opl", old), ("new.opl", new)):
            (ready / name).write_bytes(text)
        if shutil.which("osmium") is not None:
            words = ["osmium", "derive-changes", ready / "old.opl", ready / "new.opl", "-f", "opl", "-o", ready / "is.opl"]
            outcome = run(words)
            is_written = (ready / "is.opl").read_bytes() if outcome.status == 0 else outcome
            tally.check("osmium writes it", is_written == written, is_written)
        (changes / "1.opl").write_bytes(written)
        with server(ready / "old.opl", "--connections", 1, "--changes", changes) as running:
            tally.check("osmium's changes", root_at(running) == published(ready / "new.opl", 1))
            outcome = running.ended()
            tally.check("osmium's changes are taken", outcome == Outcome(b"", b"", 0), outcome)


def check_words(tally):
    """Changes are for edition 2; a folder that isn't there has no file; after the last sequence none is looked for."""
    outcome = run([PROGRAM, "serve", set_file(b"F"), "0", "--edition", "1", "--changes", "."])
    tally.check("edition 1", outcome == Outcome(b"", b"bad edition\n", 2), outcome)
    with server(set_file(b"F"), "--connections", 1, "--changes", "no-such-folder") as running:
        tally.check("no folder", root_at(running) == root_of(b"F", b"2").encode())
        outcome = running.ended()
        tally.check("no folder is told of", outcome == Outcome(b"", b"", 0), outcome)
    last = 2**64 - 1
    with folders() as (changes, ready):
        (changes / f"{last}.opl").write_bytes(DELETE_WAY)
        (changes / f"{last + 1}.opl").write_bytes(DELETE_WAY)
        (ready / "set.opl").write_bytes(without(set_file(b"F").read_bytes(), b"w10 "))
        words = ["--sequence", last - 1, "--connections", 2, "--changes", changes]
        with server(set_file(b"F"), *words) as running:
            root = published(ready / "set.opl", last)
            tally.check("the last sequence", [root_at(running), root_at(running)] == [root, root])
            outcome = running.ended()
            tally.check("none after the last", outcome == Outcome(b"", b"", 0), outcome)


def check_allocations(tally):
    """Each allocation refused in turn in a connection with a change file: the old set or the new one, and a line where a
    refusal is told; the connection after it has the new set in any case."""
    with folders() as (changes, ready):
        (changes / "1.opl").write_bytes(DELETE_WAY)
        (ready / "set.opl").write_bytes(without(set_file(b"F").read_bytes(), b"w10 "))
        roots = [root_of(b"F", b"2").encode(), published(ready / "set.opl", 1)]
        met = 0
        for number in count(1):
            with tempfile.TemporaryDirectory() as room:
                mark = Path(room) / "refused"
                refusing = {"REFUSE_ALLOCATION": number, "REFUSE_MARK": mark}
                words = ["--connections", 2, "--changes", changes]
                with server(set_file(b"F"), *words, refusing=refusing) as running:
                    if running.port is None:
                        continue
                    first, second = root_at(running), root_at(running)
                    rest = running.ended()
                if not mark.exists():
                    break
            met += 1
            holds = (
                (first, second, rest) == (roots[1], roots[1], Outcome(b"", b"", 0))
                or (first, second, rest) == (roots[0], roots[1], Outcome(b"", b"no memory\n", 0))
                or (first, second, rest) == (b"no memory", roots[1], Outcome(b"", b"G3\n", 0))
                or (first, second, rest) == (roots[1], b"no memory", Outcome(b"", b"G3\n", 0))
                or (first, second, rest) == (roots[1], roots[1], Outcome(b"", b"no memory\n", 0))
                or rest == Outcome(b"", b"no memory\n", 3)
            )
            tally.check(f"allocation {number} with changes", holds, first, second, rest)
        tally.check("allocations of a publication were refused", met > 50, met)


def soak_sets(ready, random_numbers):
    """Change files for the soak, and the root after each as a publisher builds it from nothing."""
    nodes = {number: b"n%d Tk=v%d x10.%03d y50.%03d\n" % (number, number % 7, number, number) for number in range(1, 201)}
    ways = b"".join(b"w%d Thighway=x Nn%d,n%d\n" % (number, number, number + 1) for number in range(1, 100))

    def write(name):
        file = ready / name
        file.write_bytes(b"".join(nodes[number] for number in sorted(nodes)) + ways)
        return file

    files = [write("0.set")]
    for sequence in range(1, CONNECTIONS + 1):
        number = random_numbers.randrange(1, 201)
        nodes[number] = b"n%d Tk=v%d x10.%03d y50.%03d\n" % (
            number, random_numbers.randrange(7), random_numbers.randrange(1_000), random_numbers.randrange(1_000))
        (ready / f"{sequence}.opl").write_bytes(nodes[number])
        files.append(write(f"{sequence}.set"))
    with ThreadPoolExecutor(len(os.sched_getaffinity(0))) as workers:
        roots = list(workers.map(published, files, range(CONNECTIONS + 1)))
    return files[0], roots


def response(file):
    """The head's lines and the body of the next response of a connection."""
    head = []
    while (line := file.readline()) not in (b"\r\n", b""):
        head.append(line.rstrip(b"\r\n"))
    length = next((int(line[16:]) for line in head if line.startswith(b"Content-Length: ")), 0)
    return head, file.read(length)


def responses(running, batches):
    """The responses of one connection that sends each batch of requests once those before it are answered."""
    got = []
    with running.connect() as connection, connection.makefile("rb") as file:
        for batch in batches:
            connection.sendall(batch)
            got += [response(file) for _ in range(BATCH)]
    return got


class Soak:
    """Connections that come one after the other, so many at a time, each after one more change file."""

    def __init__(self, running, ready, changes):
        self.running = running
        self.ready = ready
        self.changes = changes
        self.coming = iter(range(1, CONNECTIONS + 1))
        self.lock = Lock()
        self.early = None

    def next_connection(self):
        """The number of the next connection, whose change file is there now; none after the last."""
        with self.lock:
            number = next(self.coming, None)
            if number is not None:
                (self.ready / f"{number}.opl").rename(self.changes / f"{number}.opl")
            if number == CONNECTIONS // 2:
                self.early = self.running.peak_kib(), self.running.descriptors()
        return number

    def answers(self, queries, batches):
        """What one client gets, which makes one connection after the other: each query with the head and the body of its
        response."""
        got = []
        while self.next_connection() is not None:
            got += zip(queries, responses(self.running, batches))
        return got


def check_soak(tally):
    """100,000 requests, 64 connections at a time, while 1,000 change files come: no more memory, no more descriptors, and
    each answer is right by `check` under the root that it names, which is one that the publisher published."""
    queries = [QUERIES[number % len(QUERIES)] for number in range(REQUESTS)]
    asked = [
        b"POST /api/checked HTTP/1.1\r\nContent-Length: %d\r\n%s\r\n%s"
        % (len(query), b"Connection: close\r\n" if number + 1 == REQUESTS else b"", query)
        for number, query in enumerate(queries)
    ]
    batches = [b"".join(asked[first:first + BATCH]) for first in range(0, REQUESTS, BATCH)]
    distinct, met = {}, 0
    with folders() as (changes, ready):
        base, roots = soak_sets(ready, random.Random(23))
        published_roots = set(roots)
        # The last connection comes once the memory has been looked at.
        with server(base, "--connections", CONNECTIONS + 1, "--changes", changes) as running:
            soak = Soak(running, ready, changes)
            with ThreadPoolExecutor(AT_A_TIME) as clients:
                got = list(clients.map(lambda _: soak.answers(queries, batches), range(AT_A_TIME)))
            late = running.peak_kib(), running.descriptors()
            tally.check("the last root", root_at(running) == roots[CONNECTIONS])
            outcome = running.ended()
        for query, (head, body) in chain.from_iterable(got):
            root, length = body[:32].hex().encode(), int.from_bytes(body[32:40], "big")
            met += head[:1] == [b"HTTP/1.1 200 OK"] and b"Osm-Root: " + root in head and root in published_roots
            distinct[root, query, body[40:40 + length], body[40 + length:]] = None
        tally.check("the requests of the soak", met == CONNECTIONS * REQUESTS, met)
        tally.check("the soak ends", outcome == Outcome(b"", b"", 0), outcome)
        tally.check("no more memory", late[0] <= soak.early[0] + 1024, soak.early, late)
        tally.check("no more descriptors", late[1] <= soak.early[1], soak.early, late)
        tally.check("one answer a root and query", len(distinct) == len({it[:2] for it in distinct}), len(distinct))
        tally.check("many roots were asked", len({it[0] for it in distinct}) > CONNECTIONS // 10, len({it[0] for it in distinct}))

        def verdict(numbered):
            number, (root, query, answer, proof) = numbered
            files = [ready / f"{number}.{kind}" for kind in ("query", "answer", "proof")]
            for file, text in zip(files, (query, answer, proof)):
                file.write_bytes(text)
            outcome = run([PROGRAM, "check", root.decode(), *files])
            for file in files:
                file.unlink()
            return outcome

        with ThreadPoolExecutor(len(os.sched_getaffinity(0))) as workers:
            verdicts = list(workers.map(verdict, enumerate(distinct)))
        right = sum(outcome == Outcome(b"yes\n", b"", 0) for outcome in verdicts)
        tally.check("each answer is right", right == len(distinct), right, len(distinct))


def main():
    tally = Tally()
    built_library()
    check_words(tally)
    check_files(tally)
    check_kept(tally)
    check_unread(tally)
    check_osmium(tally)
    check_allocations(tally)
    check_soak(tally)
    tally.end()


if __name__ == "__main__":
    main()
