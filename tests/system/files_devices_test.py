"""`publish`, `prove` and `check` over devices that fail: each read and each write refused in turn. And what `prove` writes
takes the place of older files: each call on them refused in turn, the program killed, a full disk.
"""

import os
import resource
import signal
import subprocess
import tempfile
import time
from itertools import count
from pathlib import Path

from ask_memory_test import NODES
from runs import PROGRAM, Outcome, Tally, built_library, each_refused, run, run_refused

EIO, ENOSPC, TAKES_NOTHING = 5, 28, 0


def check_reads(tally, words):
    """A read that fails is told, and nothing is written."""
    for others in ({}, {"SHORT_READS": 700}):
        met = 0
        for number, outcome in each_refused([PROGRAM, *words], b"", "REFUSE_READ", **others):
            met += 1
            tally.check(f"{words}, read {number}, {others}", outcome == Outcome(b"", b"device\n", 3), outcome)
        tally.check(f"{words}, {others}: reads were refused", met > 1)


def check_untouched(tally, words, made):
    """Where a read fails, no file is made."""
    for number in count(1):
        for path in made:
            path.unlink(missing_ok=True)
        outcome = run_refused([PROGRAM, *words], b"", "REFUSE_READ", number, {})
        if outcome is None:
            tally.check(f"{words}: files were left unmade", number > 2)
            return
        holds = outcome == Outcome(b"", b"device\n", 3) and not any(path.exists() for path in made)
        tally.check(f"{words}, read {number}: no file is made", holds, outcome)


def check_writes(tally, words, text):
    """A write that fails or takes nothing is told; the text is begun."""
    for errno in (EIO, ENOSPC, TAKES_NOTHING):
        for others in ({}, {"SHORT_WRITES": 2000}):
            refusing = {"REFUSE_ERRNO": errno} | others
            met = 0
            for number, outcome in each_refused(words, b"", "REFUSE_WRITE", **refusing):
                met += 1
                begun = text.startswith(outcome.stdout) and outcome.stdout != text
                holds = begun and outcome == Outcome(outcome.stdout, b"device\n", 3)
                tally.check(f"{words}, write {number}, {refusing}", holds, outcome)
            tally.check(f"{words}, {refusing}: writes were refused", met > 0)


OLD = b"what was there before\n"


class Places:
    """A folder with two places for files, each with an older file, or with none."""

    def __init__(self, room, are_there):
        self.folder = Path(room)
        self.paths = [self.folder / "a", self.folder / "p"]
        self.old = [OLD, OLD] if are_there else [None, None]
        for path in self.folder.iterdir():
            path.unlink()
        for path in self.paths if are_there else []:
            path.write_bytes(OLD)
            path.chmod(0o640)

    def texts(self):
        """What is at the two places, and whether anything else is in the folder."""
        others = [path.name for path in self.folder.iterdir() if path not in self.paths]
        return [path.read_bytes() if path.exists() else None for path in self.paths], others


def check_replaced(tally, words, root, texts):
    """Each call on the files that `prove` writes fails in turn: the older files stay as they were. Only where the second
    rename fails has the first file been replaced. Nothing else is left in their folder."""
    with tempfile.TemporaryDirectory() as folder:
        for are_there in (True, False):
            places = Places(folder, are_there)
            outcome = run([*words, *places.paths])
            holds = outcome == Outcome(root, b"", 0) and places.texts() == (texts, [])
            tally.check("prove replaces what was there", holds, outcome, places.texts())
            if are_there:
                modes = [path.stat().st_mode & 0o777 for path in places.paths]
                tally.check("with its mode", modes == [0o640, 0o640], modes)
            for kind, least in (("REFUSE_WRITE", 3), ("REFUSE_SYNC", 2), ("REFUSE_RENAME", 2)):
                for refusing in ({}, {"REFUSE_ERRNO": ENOSPC}, {"SHORT_WRITES": 2000}):
                    met = check_each_replaced(tally, words, kind, refusing, folder, are_there, texts)
                    tally.check(f"{kind}, {refusing}: calls were refused", met >= least, met)


def check_each_replaced(tally, words, kind, refusing, folder, are_there, texts):
    """Refuses each call of a kind in turn, and tells how many there were."""
    for number in count(1):
        places = Places(folder, are_there)
        outcome = run_refused([*words, *places.paths], b"", kind, number, refusing)
        if outcome is None:
            return number - 1
        got, others = places.texts()
        # The last write is that of the root, after both files are in their places.
        allowed = [places.old, texts] if kind == "REFUSE_WRITE" else [places.old]
        if kind == "REFUSE_RENAME" and number == 2:
            allowed = [[texts[0], places.old[1]]]
        holds = outcome == Outcome(b"", b"device\n", 3) and got in allowed and others == []
        tally.check(f"{kind} {number}, {refusing}, {are_there}", holds, outcome, got, others)


def check_full(tally, words, large):
    """A disk that takes no more than 4096 bytes of a file: the older files stay."""
    with tempfile.TemporaryDirectory() as folder:
        places = Places(folder, True)

        def limit():
            signal.signal(signal.SIGXFSZ, signal.SIG_IGN)
            resource.setrlimit(resource.RLIMIT_FSIZE, (4096, 4096))

        ended = subprocess.run([*words, *places.paths], capture_output=True, preexec_fn=limit, timeout=60)
        holds = (ended.stdout, ended.stderr, ended.returncode) == (b"", b"device\n", 3)
        tally.check("a full disk", holds and places.texts() == ([OLD, OLD], []) and large > 4096, ended, places.texts())


def check_killed(tally, words, texts):
    """Killed at any moment, it leaves the old files or the new ones, or of these only the answer: never a part of one."""
    with tempfile.TemporaryDirectory() as folder:
        allowed = [[OLD, OLD], [texts[0], OLD], texts]
        seen = []
        for step in range(40):
            places = Places(folder, True)
            running = subprocess.Popen([*words, *places.paths], stdout=subprocess.DEVNULL, stderr=subprocess.DEVNULL)
            time.sleep(step * 0.0005)
            running.kill()
            running.wait()
            seen.append(places.texts()[0])
        tally.check("killed at any moment", all(got in allowed for got in seen), [got for got in seen if got not in allowed])


def check_one_file(tally, words, root, texts):
    """One file with two names, and a file that is read as well, are refused before anything is read; a link is followed; what
    is no regular file is written as it stands."""
    with tempfile.TemporaryDirectory() as room:
        folder = Path(room)
        (folder / "set").write_bytes(Path(words[2]).read_bytes())
        (folder / "query").write_bytes(Path(words[3]).read_bytes())
        (folder / "there").write_bytes(OLD)
        os.link(folder / "there", folder / "hard")
        (folder / "link").symlink_to("there")
        begin = [*words[:2], folder / "set", folder / "query"]
        refused = Outcome(b"", b"device\n", 3)
        for answer, proof in [("new", "new"), ("new", "./new"), ("there", "there"), ("there", "hard"), ("link", "there"),
                              ("set", "new"), ("new", "set"), ("query", "new"), ("new", "query")]:
            before = {path.name: path.read_bytes() for path in folder.iterdir()}
            outcome = run([*begin, f"{folder}/{answer}", f"{folder}/{proof}"])
            after = {path.name: path.read_bytes() for path in folder.iterdir()}
            tally.check(f"prove {answer} {proof}", outcome == refused and before == after, outcome, after.keys())
        outcome = run([*begin, folder / "link", "/dev/null"])
        got = (folder / "there").read_bytes(), (folder / "link").is_symlink()
        tally.check("prove through a link", outcome == Outcome(root, b"", 0) and got == (texts[0], True), outcome, got)
        outcome = run([*begin, "/dev/stdout", "/dev/null"])
        tally.check("prove to /dev/stdout", outcome == Outcome(texts[0] + root, b"", 0), outcome)


def main():
    tally = Tally()
    built_library()
    with tempfile.TemporaryDirectory() as room:
        file, query, answer, proof = (Path(room) / name for name in ("set.opl", "query", "answer", "proof"))
        file.write_bytes(NODES)
        query.write_bytes(b"node(77);out;")
        whole = run([PROGRAM, "prove", file, query, answer, proof])
        root = whole.stdout.decode().strip()
        texts = [answer.read_bytes(), proof.read_bytes()]
        for words in [
            ["publish", file],
            ["prove", file, query, "/dev/null", "/dev/null"],
            ["check", root, query, answer, proof],
            ["check", root, query, answer, proof, "--max-size", "1000000"],
        ]:
            check_reads(tally, words)
        check_writes(tally, [PROGRAM, "publish", file], whole.stdout)
        check_writes(tally, [PROGRAM, "check", root, query, answer, proof], b"yes\n")
        made = [Path(room) / "a", Path(room) / "p"]
        check_untouched(tally, ["prove", file, query, *made], made)
        words = [PROGRAM, "prove", file, query]
        check_replaced(tally, words, whole.stdout, texts)
        check_full(tally, words, max(len(text) for text in texts))
        check_killed(tally, words, texts)
        check_one_file(tally, words, whole.stdout, texts)
    tally.end()


if __name__ == "__main__":
    main()
