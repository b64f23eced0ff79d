"""`serve` with a standard error that nobody reads: it goes on, whole lines are dropped, and lines come again once somebody
reads. And one that is closed."""

import fcntl
import os
import socket
import subprocess
import tempfile
import time
from contextlib import contextmanager
from pathlib import Path

from changes_test import DELETE_WAY, folders, published, put, root_at, without
from lines_rows_test import set_file
from runs import PROGRAM, SECONDS, Tally
from serve_test import root_of

# To make a pipe smaller (F_SETPIPE_SZ of linux/fcntl.h): it holds a few pages. To the system it is full once each of them
# is begun.
SET_PIPE_SIZE = 1031
PAGE = 4096
PAGES = 4
FULL = b"." * (PAGES * PAGE)


def free_port():
    """A port that nobody listens on: the line that tells which one was taken may be dropped."""
    with socket.create_server(("127.0.0.1", 0)) as listening:
        return listening.getsockname()[1]


class Running:
    """A server whose standard error is this file."""

    def __init__(self, errors, *words):
        self.port = free_port()
        command = [PROGRAM, "serve", set_file(b"F"), str(self.port), *words]
        self.process = subprocess.Popen(command, stdout=subprocess.PIPE, stderr=errors)
        deadline = time.monotonic() + SECONDS
        while True:
            try:
                self.connect().close()
                return
            except ConnectionRefusedError:
                if time.monotonic() > deadline or self.process.poll() is not None:
                    raise
                time.sleep(0.01)

    def connect(self):
        return socket.create_connection(("127.0.0.1", self.port), timeout=5)


@contextmanager
def running(errors, *words):
    server = Running(errors, *words)
    try:
        yield server
    finally:
        server.process.kill()
        server.process.communicate()


@contextmanager
def small_pipe():
    """A pipe of a few pages."""
    ours, theirs = os.pipe()
    fcntl.fcntl(theirs, SET_PIPE_SIZE, PAGES * PAGE)
    os.set_blocking(ours, False)
    try:
        yield ours, theirs
    finally:
        os.close(ours)
        os.close(theirs)


def read_all(pipe):
    """What stands in the pipe."""
    got = b""
    try:
        while piece := os.read(pipe, 1 << 16):
            got += piece
    except BlockingIOError:
        pass
    return got


def refuse(server, changes, ready, numbers, root):
    """Has the server refuse change files that delete these nodes, one after the other: whether it goes on answering."""
    for number in numbers:
        put(changes / "1.opl", b"n%d dD\n" % number, ready)
        if root_at(server) != root:
            return False
    return True


def check_full(tally):
    """A pipe that is full from the first moment on: it serves, and takes change files. Once it is read, lines come again."""
    with folders() as (changes, ready), small_pipe() as (ours, theirs):
        (ready / "set.opl").write_bytes(without(set_file(b"F").read_bytes(), b"w10 "))
        roots = [root_of(b"F", b"2").encode(), published(ready / "set.opl", 1)]
        os.write(theirs, FULL)
        flags = fcntl.fcntl(theirs, fcntl.F_GETFL)
        with running(theirs, "--changes", changes) as server:
            tally.check("a full pipe: it serves", root_at(server) == roots[0])
            tally.check("a full pipe: refused files", refuse(server, changes, ready, range(1000, 1020), roots[0]))
            got = read_all(ours)
            tally.check("a full pipe: nothing was written", got == FULL, len(got), got[-80:])
            tally.check("a pipe that is read", refuse(server, changes, ready, [2000, 2001], roots[0]))
            got = read_all(ours)
            tally.check("a pipe that is read: lines come again", got == b"I2 n2000\nI2 n2001\n", got)
            os.write(theirs, FULL)
            put(changes / "1.opl", DELETE_WAY, ready)
            tally.check("a full pipe: a change file", root_at(server) == roots[1])
            tally.check("its flags are as they were", fcntl.fcntl(theirs, fcntl.F_GETFL) == flags)


def check_filled(tally):
    """A pipe that nobody reads fills up: what stands in it is whole lines, from the first on, without a gap."""
    with folders() as (changes, ready), small_pipe() as (ours, theirs):
        root = root_of(b"F", b"2").encode()
        with running(theirs, "--changes", changes) as server:
            numbers = range(1000, 3000)
            tally.check("a pipe fills up", refuse(server, changes, ready, numbers, root))
            got = read_all(ours)
            first, *lines = got.splitlines(keepends=True)
            tally.check("the first line", first.startswith(b"osm_mirror listens on 127.0.0.1:"), first)
            want = [b"I2 n%d\n" % number for number in numbers]
            is_front = lines == want[: len(lines)] and 0 < len(lines) < len(want)
            tally.check("whole lines", is_front and len(got) <= PAGES * PAGE, len(lines), lines[-1:])


def check_gone(tally):
    """A pipe that nobody can read any more, and no standard error at all."""
    with folders() as (changes, ready):
        root = root_of(b"F", b"2").encode()
        ours, theirs = os.pipe()
        os.close(ours)
        with running(theirs, "--changes", changes) as server:
            tally.check("a pipe without a reader", refuse(server, changes, ready, range(1000, 1005), root))
        os.close(theirs)
        shell = ["sh", "-c", 'exec "$0" "$@" 2>&-']
        port = str(free_port())
        process = subprocess.Popen([*shell, PROGRAM, "serve", set_file(b"F"), port, "--connections", "1"])
        deadline = time.monotonic() + SECONDS
        while time.monotonic() < deadline:
            try:
                socket.create_connection(("127.0.0.1", int(port))).close()
                break
            except ConnectionRefusedError:
                time.sleep(0.01)
        tally.check("no standard error", process.wait(timeout=SECONDS) == 0)


def check_end(tally):
    """Where it ends with a fault, it ends, though its last line can't be told: the port is taken."""
    with small_pipe() as (ours, theirs), tempfile.TemporaryDirectory() as room:
        (Path(room) / "set.opl").write_bytes(set_file(b"F").read_bytes())
        with socket.create_server(("127.0.0.1", 0)) as taken:
            port = str(taken.getsockname()[1])
            ended = subprocess.run([PROGRAM, "serve", Path(room) / "set.opl", port], stderr=theirs, timeout=SECONDS)
        got = read_all(ours)
        tally.check("the port is taken", (ended.returncode, got) == (3, b"device\n"), ended, got)


def main():
    tally = Tally()
    check_full(tally)
    check_filled(tally)
    check_gone(tally)
    check_end(tally)
    tally.end()


if __name__ == "__main__":
    main()
