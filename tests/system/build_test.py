"""`./build` and `./osm_mirror` with a stand-in for rt, in a repository of five small crates: order, what runs side by side,
interruptions, failures, edits, two calls at a time. Nothing is proved here.
"""

import os
import pty
import shutil
import signal
import subprocess
import tempfile
import time
from contextlib import contextmanager
from pathlib import Path

from runs import SECONDS, TOP, Outcome, Tally

# As rt does it: it locks the crate and those below it, takes a library that is built of the same sources as it is, keeps
# what it has done of others, and needs the libraries below. It writes what it does into a log.
RT = '''#!/usr/bin/env python3
import fcntl, os, sys, time
from pathlib import Path
folder = Path.cwd()
name, crates = folder.name, folder.parent
direct = {}
for line in (crates.parent / "crates.txt").read_text().splitlines():
    if not line.startswith("#"):
        crate, _, others = line.partition(":")
        direct[crate] = [other for other in others.split() if other != "kit_crate"]
        if not (crates / crate / "src").exists():
            sys.exit(f"crates.txt: there is no {crate}")
def below(crate):
    return sorted({found for other in direct[crate] for found in (other, *below(other))})
def log(word):
    with open(os.environ["RT_LOG"], "a") as file:
        file.write(f"{word} {name}\\n")
def stamp(crate):
    return (crates / crate / "src/lib.rt").read_text() + "".join(map(stamp, direct[crate]))
held = [os.open(crates / crate, os.O_RDONLY) for crate in sorted([*below(name), name])]
for lock in held:
    try:
        fcntl.flock(lock, fcntl.LOCK_EX | fcntl.LOCK_NB)
    except BlockingIOError:
        log("waits")
        fcntl.flock(lock, fcntl.LOCK_EX)
for other in below(name):
    if not (built := crates / other / "out/rlib/stamp").exists() or built.read_text() != stamp(other):
        log("lacks")
library, kept = folder / "out/rlib/stamp", folder / "out/incremental/kept"
mine = stamp(name)
if library.exists() and library.read_text() == mine:
    log("finds")
    sys.exit(0)
log("begins")
kept.parent.mkdir(parents=True, exist_ok=True)
done = len(kept.read_text()) if kept.exists() else 0
while done < int(os.environ.get("RT_ROUNDS", "2")):
    if os.environ.get("RT_FAILS") == name and done == 1:
        sys.exit(f"error: {name} isn't proved")
    time.sleep(0.1)
    done += 1
    kept.write_text("x" * done)
    log("round")
kept.write_text("")
log("ends")
if sys.argv[1] == "lib":
    library.parent.mkdir(exist_ok=True)
    library.write_text(mine)
else:
    program = folder / "out/osm_mirror"
    program.write_text("#!/bin/sh\\necho ran \\"$@\\"; cat; exit 3\\n")
    program.chmod(0o755)
    print("rt: running out/osm_mirror")
    sys.exit(2)
'''

# In the form of the kit, which digests a crate more than once.
KIT_RT = '''#!/usr/bin/env python3
import os, subprocess, sys
from pathlib import Path

class rtlib:
    class Crate:
        def stamp(self):
            with open(os.environ["RT_LOG"], "a") as file:
                file.write(f"digests {Path.cwd().name}\\n")

def main(words):
    crate = rtlib.Crate()
    crate.stamp()
    crate.stamp()
    return subprocess.call([Path(__file__).parent / "rt_alone", *words])

if __name__ == "__main__":
    sys.exit(main(sys.argv[1:]))
'''

CRATES = """# lowest first
bottom: kit_crate
left: bottom
right: bottom kit_crate
left_tests: left
osm_mirror: left right
"""

RAN = Outcome(b"ran ask a b\ninput", b"", 3)


class Site:
    """A repository with the scripts and five crates, and what the stand-in did there."""

    def __init__(self, room):
        self.top = room / "a site"
        self.log = room / "log"
        self.environment = dict(os.environ) | {"RT_LOG": str(self.log), "PATH": f"{room}/bin:{os.environ['PATH']}"}
        (room / "bin").mkdir()
        (room / "bin/rt").write_text(RT, encoding="utf-8")
        (room / "bin/rt").chmod(0o755)
        for crate in ("bottom", "left", "right", "left_tests", "osm_mirror"):
            (self.top / "crates" / crate / "src").mkdir(parents=True)
            (self.top / "crates" / crate / "src/lib.rt").write_text(crate, encoding="utf-8")
        (self.top / "docs").mkdir()
        (self.top / ".git").mkdir()
        (self.top / "docs/HACKING.md").write_text("| left | 2.0 | 0 |\n| right | 3.0 | 0 |\n", encoding="utf-8")
        (self.top / "crates.txt").write_text(CRATES, encoding="utf-8")
        (self.top / "HANDLES").write_text("Handles allowed: none.\n", encoding="utf-8")
        for script in ("build", "build_rt", "osm_mirror"):
            shutil.copy2(TOP / script, self.top)

    def begin(self, **variables):
        """Begins ./osm_mirror, from another folder. A shell that runs this test in the background has SIGINT ignored."""
        return subprocess.Popen(
            [self.top / "osm_mirror", "ask", "a b"], cwd="/", env=self.environment | variables, stdin=subprocess.PIPE,
            stdout=subprocess.PIPE, stderr=subprocess.PIPE, preexec_fn=lambda: signal.signal(signal.SIGINT, signal.SIG_DFL))

    def call(self, **variables):
        """What a whole call of ./osm_mirror comes to."""
        return outcome_of(self.begin(**variables))

    def done(self):
        """What the stand-in did since it was asked the last time."""
        lines = self.log.read_text(encoding="utf-8").splitlines() if self.log.exists() else []
        self.log.unlink(missing_ok=True)
        return lines

    def wait_for(self, line):
        """Waits until the stand-in has done this."""
        ends = time.monotonic() + SECONDS
        while line not in (self.log.read_text(encoding="utf-8").splitlines() if self.log.exists() else []):
            if time.monotonic() > ends:
                raise TimeoutError(line)
            time.sleep(0.02)

    def is_clean(self):
        """Whether nothing is left but what stands in the crates."""
        return list((self.top / ".git").iterdir()) == [] and not (self.top / "out").exists()


def outcome_of(process):
    stdout, stderr = process.communicate(b"input", timeout=SECONDS)
    return Outcome(stdout, stderr, process.returncode)


@contextmanager
def site():
    with tempfile.TemporaryDirectory() as room:
        yield Site(Path(room))


def check_order(tally):
    """Lowest first, the longest chain first, no tests; nothing is written but what the program writes."""
    with site() as here:
        # (long enough that two runs meet, however late a loaded machine begins them)
        outcome = here.call(RT_ROUNDS="20")
        tally.check("the first call", outcome == RAN, outcome)
        done = here.done()
        begun = [line.split()[1] for line in done if line.startswith("begins")]
        tally.check("each crate once, in order", sorted(begun[1:3]) == ["left", "right"] and (begun[0], begun[3:]) == (
            "bottom", ["osm_mirror"]), done)
        if os.cpu_count() >= 4:
            tally.check("side by side", done.index("begins left") < done.index("ends right") and done.index(
                "begins right") < done.index("ends left"), done)
        tally.check("no run waits for another", not [line for line in done if line.startswith(("waits", "lacks"))], done)
        tally.check("rooms are gone", here.is_clean())
        outcome = here.call()
        tally.check("the second call", (outcome, here.done()) == (RAN, []), outcome)


def check_kit(tally):
    """Where rt is the kit's Python program, each crate is digested once a run; what comes of the run is the same."""
    with site() as here:
        programs = here.top.parent / "bin"
        (programs / "rt").rename(programs / "rt_alone")
        (programs / "rt").write_text(KIT_RT, encoding="utf-8")
        (programs / "rt").chmod(0o755)
        (programs / "rtlib.py").touch()
        outcome = here.call()
        tally.check("a call with the kit", outcome == RAN, outcome)
        done = here.done()
        crates = ["bottom", "left", "osm_mirror", "right"]
        tally.check("each crate is built", sorted(line for line in done if line.startswith("ends")) == [f"ends {it}" for it in crates], done)
        tally.check("each is digested once", sorted(line for line in done if line.startswith("digests")) == [f"digests {it}" for it in crates], done)


def check_wrong_order(tally):
    """A crate that crates.txt lists after one that stands on it: nothing is built."""
    with site() as here:
        (here.top / "crates.txt").write_text(CRATES.replace("left: bottom\n", "") + "left: bottom\n", encoding="utf-8")
        outcome = here.call()
        told = b"osm_mirror: crates.txt lists left after left_tests, which stands on it\n"
        tally.check("not the lowest first", outcome == Outcome(b"", told, 70), outcome)
        tally.check("nothing is begun", here.done() == [])


def check_edit(tally):
    """After an edit just what stands on it is built again; one that comes during the build is built at the next call."""
    with site() as here:
        here.call()
        here.done()
        (here.top / "crates/right/src/lib.rt").write_text("right, edited", encoding="utf-8")
        running = here.begin(RT_ROUNDS="8")
        here.wait_for("round right")
        (here.top / "crates/left/src/lib.rt").write_text("left, edited", encoding="utf-8")
        outcome = outcome_of(running)
        done = here.done()
        touched = {line.split()[1] for line in done}
        tally.check("an edit", outcome == RAN and touched == {"right", "osm_mirror"}, outcome, done)
        outcome = here.call()
        done = here.done()
        tally.check("an edit meanwhile", outcome == RAN and "begins left" in done and "begins right" not in done, done)


def check_failure(tally):
    """A crate that fails: the others are stopped, its log is told, and the next call goes on."""
    with site() as here:
        outcome = here.call(RT_FAILS="right", RT_ROUNDS="9")
        done = here.done()
        told = b"error: right isn't proved\nosm_mirror: rt ended with status 1 in crates/right\n"
        tally.check("a failure", outcome == Outcome(b"", told, 70), outcome)
        tally.check("the others are stopped", "ends left" not in done and here.is_clean(), done)
        outcome = here.call(RT_ROUNDS="9")
        done = here.done()
        tally.check("goes on after it", outcome == RAN and not [x for x in done if x.endswith(" bottom")], outcome, done)
        # One round of `right` was kept, and that one isn't made again.
        tally.check("what was proved is kept", done.count("round right") == 8, done)
    with site() as here:
        os.remove(here.top.parent / "bin/rt")
        outcome = here.call(PATH="/usr/bin:/bin")
        tally.check("no rt", (outcome.status, outcome.stderr.count(b"\n")) == (70, 1) and b"rt isn't here" in outcome.stderr, outcome)


def check_interruption(tally):
    """Ended by a signal it ends what it has begun, and the next call goes on."""
    for number, is_clean in [(signal.SIGTERM, True), (signal.SIGINT, True), (signal.SIGKILL, False)]:
        with site() as here:
            running = here.begin(RT_ROUNDS="20")
            here.wait_for("round left")
            running.send_signal(number)
            outcome = outcome_of(running)
            tally.check(f"{number.name}", outcome == Outcome(b"", b"", -number), outcome)
            begun = here.done()
            if is_clean:
                time.sleep(0.5)
                tally.check(f"{number.name}: nothing goes on", here.done() == [] and here.is_clean())
            outcome = here.call(RT_ROUNDS="20")
            done = here.done()
            rounds = (begun + done).count("round left")
            tally.check(f"after {number.name}", outcome == RAN and rounds == 20 and "begins bottom" not in done, rounds, done)
            tally.check(f"after {number.name}, rooms are gone", here.is_clean())


def check_two_calls(tally):
    """The second of two calls waits, and builds nothing twice."""
    with site() as here:
        first = here.begin(RT_ROUNDS="5")
        here.wait_for("begins bottom")
        outcomes = [here.call(RT_ROUNDS="5"), outcome_of(first)]
        done = here.done()
        tally.check("two calls", outcomes == [RAN, RAN] and len([x for x in done if x.startswith("begins")]) == 4, outcomes, done)


def check_terminal(tally):
    """On a terminal there is a line for each crate, a bar, and where the program lies."""
    with site() as here:
        ours, its = pty.openpty()
        words = [here.top / "osm_mirror", "ask", "a b"]
        with subprocess.Popen(words, env=here.environment, stdin=subprocess.DEVNULL, stdout=subprocess.PIPE, stderr=its) as running:
            os.close(its)
            parts = []
            try:
                while part := os.read(ours, 1 << 16):
                    parts.append(part)
            except OSError:
                # The other side is closed.
                pass
            os.close(ours)
        told = b"".join(parts)
        lines = [line.split(b"\r")[-1].strip() for line in told.replace(b"\r\n", b"\n").split(b"\n")]
        built = [line.split()[1].decode() for line in lines if b" is proved and built (" in line]
        tally.check("a line for each crate", sorted(built) == ["bottom", "left", "osm_mirror", "right"], told)
        tally.check("a bar", b"2 of 4 crates, " in told and b" left" in told, told)
        program = str(here.top / "crates/osm_mirror/out/osm_mirror").encode()
        tally.check("where it lies", lines[-2].startswith(b"osm_mirror: the program is " + program), lines)


def main():
    tally = Tally()
    check_order(tally)
    check_kit(tally)
    check_wrong_order(tally)
    check_edit(tally)
    check_failure(tally)
    check_interruption(tally)
    check_two_calls(tally)
    check_terminal(tally)
    tally.end()


if __name__ == "__main__":
    main()
