"""Runs of a built program or test binary, as it is and with calls of the C library refused (refuse.c)."""

import os
import subprocess
import sys
import tempfile
from concurrent.futures import ThreadPoolExecutor
from pathlib import Path
from typing import NamedTuple

TOP = Path(__file__).resolve().parents[2]
PROGRAM = TOP / "crates/osm_mirror/out/osm_mirror"
HERE = Path(__file__).resolve().parent
LIBRARY = HERE / "build/refuse.so"

SECONDS = 60


class Outcome(NamedTuple):
    """What a run wrote, and the status with which it ended (negative: the signal that ended it)."""

    stdout: bytes
    stderr: bytes
    status: int


def built_library():
    """The library of refuse.c, built anew where its source is newer."""
    source = HERE / "refuse.c"
    if not LIBRARY.exists() or LIBRARY.stat().st_mtime < source.stat().st_mtime:
        LIBRARY.parent.mkdir(exist_ok=True)
        made = LIBRARY.with_suffix(f".{os.getpid()}")
        command = ["gcc", "-O2", "-Wall", "-shared", "-fPIC", "-o", made, source, "-ldl"]
        subprocess.run(command, check=True)
        made.rename(LIBRARY)
    return LIBRARY


def run(words, stdin=b"", refusing=None):
    """Runs the words with this input: bytes, or an open file. `refusing` has variables of refuse.c."""
    environment = dict(os.environ)
    if refusing is not None:
        environment |= {"LD_PRELOAD": str(built_library())} | {k: str(v) for k, v in refusing.items()}
    given = {"input": stdin} if isinstance(stdin, bytes) else {"stdin": stdin}
    ended = subprocess.run(words, capture_output=True, env=environment, timeout=SECONDS, **given)
    return Outcome(ended.stdout, ended.stderr, ended.returncode)


def run_refused(words, stdin, kind, number, others):
    """One run in which the call of this number is refused, or None where the run has no such call."""
    with tempfile.TemporaryDirectory() as room:
        mark = Path(room) / "refused"
        outcome = run(words, stdin, {kind: number, "REFUSE_MARK": mark} | others)
        return outcome if mark.exists() else None


def each_refused(words, stdin, kind, **others):
    """Refuses each call of a kind in turn: yields (number, outcome) from 1 until a run has no such call.

    `kind` is REFUSE_ALLOCATION, REFUSE_READ or REFUSE_WRITE, say; `others` are further variables of refuse.c.
    """
    built_library()
    at_once = 16 * len(os.sched_getaffinity(0))
    with ThreadPoolExecutor(len(os.sched_getaffinity(0))) as workers:
        first = 1
        while True:
            numbers = range(first, first + at_once)
            outcomes = workers.map(lambda n: run_refused(words, stdin, kind, n, others), numbers)
            for number, outcome in zip(numbers, outcomes):
                if outcome is None:
                    return
                yield number, outcome
            first += at_once


class Tally:
    """Counts what passed and what failed, and tells of each failure."""

    def __init__(self):
        self.passed = 0
        self.failed = 0

    def check(self, name, holds, *told):
        """Counts one test; `told` is shown where it fails."""
        if holds:
            self.passed += 1
        else:
            self.failed += 1
            print(f"FAILED {name}:", *told, flush=True)

    def end(self):
        """Prints the last line, and ends with status 0 where nothing failed."""
        print(f"{self.passed} passed, {self.failed} failed")
        sys.exit(0 if self.failed == 0 else 1)
