"""`packaging/watch`, which a timer of systemd runs: it restarts a mirror that doesn't answer, or whose head names another root,
and leaves every other one alone. In place of systemctl stands a script that notes how it is called."""

import os
import shutil
import socket
import subprocess
import tempfile
import threading
from pathlib import Path

from lines_rows_test import set_file
from pack_heads_test import FIRST, SECOND, add
from pack_serve_test import packed
from runs import PROGRAM, TOP, Outcome, Tally, run
from serve_test import server

RESTARTED = "try-restart osm_mirror@{}.service\n"


class Watch:
    """The script as `./install` puts it in place, for the program of this folder."""

    def __init__(self, room):
        self.script, self.calls = room / "watch", room / "calls"
        text = (TOP / "packaging/watch").read_text(encoding="utf-8")
        self.script.write_text(text.replace("/usr/local/bin/osm_mirror", str(PROGRAM)), encoding="utf-8")
        self.script.chmod(0o755)
        tools = room / "tools"
        tools.mkdir()
        (tools / "systemctl").write_text(f'#!/bin/sh\necho "$*" >>{self.calls}\n', encoding="utf-8")
        (tools / "systemctl").chmod(0o755)
        self.environment = dict(os.environ) | {"PATH": f"{tools}:{os.environ['PATH']}", "WATCH_SECONDS": "2"}

    def look(self, port, file):
        """What it says, and how it calls systemctl."""
        self.calls.unlink(missing_ok=True)
        ended = subprocess.run(
            [self.script, str(port), str(file)], env=self.environment, capture_output=True, stdin=subprocess.DEVNULL, timeout=30)
        called = self.calls.read_text(encoding="utf-8") if self.calls.exists() else ""
        return Outcome(ended.stdout, ended.stderr, ended.returncode), called


NOTHING = (Outcome(b"", b"", 0), "")


def check_heads(tally, watch, folder):
    """A mirror over a head is restarted once the head names another root, and one over a pack or a text never."""
    packed(set_file(b"F"), folder / "town.pack")
    head = folder / "town.pack.head"
    with server(folder / "town.pack") as running:
        tally.check("a pack", watch.look(running.port, folder / "town.pack") == NOTHING)
    with server(set_file(b"F")) as running:
        tally.check("a text", watch.look(running.port, set_file(b"F")) == NOTHING)

    add(folder, FIRST)
    with server(head) as running:
        tally.check("the same root", watch.look(running.port, head) == NOTHING)
        add(folder, SECOND)
        text = f"osm_mirror@{running.port}: {head} names another root\n".encode()
        want = Outcome(text, b"", 0), RESTARTED.format(running.port)
        told = watch.look(running.port, head)
        tally.check("another root", told == want, told)
        check_wrong_heads(tally, watch, running.port, head)
    with server(head) as running:
        tally.check("the newest root", watch.look(running.port, head) == NOTHING)
        tally.check("no such file", watch.look(running.port, folder / "gone") == NOTHING)
        tally.check("a folder", watch.look(running.port, folder) == NOTHING)
    tally.check("nobody listens", watch.look(running.port, head) == NOTHING)


def check_wrong_heads(tally, watch, port, head):
    """A head that can't be served doesn't take the place of the one that is served."""
    text = head.read_bytes()
    lines = text.split(b"\n")
    spoiled = {
        "cut short": text[:-1],
        "of two lines": b"\n".join(lines[:2]) + b"\n",
        "with a wrong root": text.replace(lines[1], b"root " + 64 * b"0"),
        "with another manifest": text.replace(lines[3], b"manifest 60 141"),
        "without its newest file": b"\n".join(lines[:-2]) + b"\n",
        "of another version": text.replace(b"head 1", b"head 2"),
    }
    for name, wrong in spoiled.items():
        place = head.with_name("wrong.head")
        place.write_bytes(wrong)
        outcome = run([PROGRAM, "query", lines[1][5:].decode(), place, "node(1);out;"])
        tally.check(f"a head {name} isn't answered from", outcome.status != 0, outcome)
        tally.check(f"a head {name}", watch.look(port, place) == NOTHING)


def answer_badly(listener):
    """Takes one connection, and answers as a server that has no such page."""
    connection, _ = listener.accept()
    with connection:
        connection.recv(1 << 16)
        connection.sendall(b"HTTP/1.1 404 Not Found\r\nContent-Length: 0\r\n\r\n")


def check_silence(tally, watch, folder):
    """What takes a connection and doesn't answer is restarted; another server on the port is left alone."""
    head = folder / "town.pack.head"
    with socket.create_server(("127.0.0.1", 0)) as listener:
        port = listener.getsockname()[1]
        told = watch.look(port, head)
        want = Outcome(f"osm_mirror@{port}: it doesn't answer\n".encode(), b"", 0), RESTARTED.format(port)
        tally.check("silence", told == want, told)
    with socket.create_server(("127.0.0.1", 0)) as listener:
        answering = threading.Thread(target=answer_badly, args=[listener])
        answering.start()
        tally.check("another server", watch.look(listener.getsockname()[1], head) == NOTHING)
        answering.join()


def main():
    tally = Tally()
    if shutil.which("curl") is None:
        print("SKIPPED: curl isn't installed")
        tally.end()
    with tempfile.TemporaryDirectory() as folder:
        room = Path(folder)
        watch = Watch(room)
        check_heads(tally, watch, room)
        check_silence(tally, watch, room)
    tally.end()


if __name__ == "__main__":
    main()
