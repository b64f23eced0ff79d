"""Processor time of a run of ./test, by crate and by what the prover did (see gate.sh).

`measure TIMES LOG COMMAND` runs the command with its output in LOG, and looks every half second at the
processes of the prover that it has started: which crate each checks, whether it proves the crate, its tests or
an edit of it, and how much processor time it has taken. TIMES gets a line for each crate and kind of work, and one
for the whole run.

The processors of a machine that others share don't always run at one speed. So each look also times a loop of fixed
work, and what was taken since the look before is told twice: as it was, and at full speed, which is that of the
loop in the fastest tenth of the looks.

`table TIMES DOCUMENT` puts the sums, in minutes, between the two marker lines of the document.
"""

import os
import resource
import subprocess
import sys
import time
from collections import Counter
from pathlib import Path

TICKS = os.sysconf("SC_CLK_TCK")
SECONDS_BETWEEN_LOOKS = 0.5
# A look's loop runs on one processor. The speed at a look is the mean of this many looks on each side of it.
LOOKS_ON_EACH_SIDE = 20
KINDS = ("proofs", "tests", "edits")
WHOLE_RUN = "whole run"
BEGIN = "<!-- gate table: written by bench/gate.sh -->"
END = "<!-- end of gate table -->"


def parents_and_seconds():
    """Of each process its parent and the processor time that it has taken itself, in seconds."""
    found = {}
    for stat in Path("/proc").glob("[0-9]*/stat"):
        try:
            fields = stat.read_text().rpartition(")")[2].split()
        except OSError:
            continue
        found[int(stat.parent.name)] = int(fields[1]), (int(fields[11]) + int(fields[12])) / TICKS
    return found


def descends(process, ancestor, processes):
    """Whether the process was started by the ancestor, or by one that it has started."""
    while process in processes and process != ancestor:
        process = processes[process][0]
    return process == ancestor


def work_of(process):
    """The crate that a process of the prover checks and the kind of its work, or None for another process."""
    try:
        words = Path(f"/proc/{process}/cmdline").read_bytes().decode(errors="replace").split("\0")
        folder = os.readlink(f"/proc/{process}/cwd")
    except OSError:
        return None
    if os.path.basename(words[0]) != "rattle" or "--crate-name" not in words:
        return None
    crate = words[words.index("--crate-name") + 1]
    if os.path.basename(folder).startswith("rt-edit-"):
        return crate, "edits"
    return crate, "tests" if "--test" in words else "proofs"


def loop_seconds():
    """The processor time of a loop of fixed work: the least of three, since the first ones find cold caches."""
    taken = []
    for _ in range(3):
        begun = time.thread_time()
        for _ in range(20_000):
            pass
        taken.append(time.thread_time() - begun)
    return min(taken)


def slowness(loops):
    """For each look how many times as long its loop took as those of the fastest tenth."""
    full_speed = sorted(loops)[len(loops) // 10]
    around = [loops[max(at - LOOKS_ON_EACH_SIDE, 0) : at + LOOKS_ON_EACH_SIDE + 1] for at in range(len(loops))]
    return [sum(them) / len(them) / full_speed for them in around]


def measure(times, log, command):
    """Runs the command, and returns its status."""
    seconds, loops, taken_at = {}, [], []
    begun = time.monotonic()
    with open(log, "wb") as out:
        run = subprocess.Popen(command, stdin=subprocess.DEVNULL, stdout=out, stderr=subprocess.STDOUT)
        while run.poll() is None:
            loops.append(loop_seconds())
            taken_at.append(Counter())
            processes = parents_and_seconds()
            for process, (_, taken) in processes.items():
                # A process is named by its number and its work: numbers come again in a long run.
                work = work_of(process)
                if work and descends(process, run.pid, processes):
                    taken_at[-1][work] += max(taken - seconds.get((process, work), 0), 0)
                    seconds[process, work] = max(taken, seconds.get((process, work), 0))
            time.sleep(SECONDS_BETWEEN_LOOKS)
    used = resource.getrusage(resource.RUSAGE_CHILDREN)
    write_times(times, loops, taken_at, time.monotonic() - begun, used.ru_utime + used.ru_stime)
    return run.returncode


def write_times(times, loops, taken_at, wall, processor):
    """Writes the seconds of each work, as taken and at full speed, and those of the whole run."""
    taken, at_full_speed = Counter(), Counter()
    for slow, works in zip(slowness(loops), taken_at):
        for work, seconds in works.items():
            taken[work] += seconds
            at_full_speed[work] += seconds / slow
    with open(times, "w", encoding="utf-8") as out:
        for work in sorted(taken):
            print(*work, f"{taken[work]:.1f}", f"{at_full_speed[work]:.1f}", sep="\t", file=out)
        print(WHOLE_RUN, f"{wall:.1f}", f"{processor:.1f}", sep="\t", file=out)


def rows_of(times):
    """The lines of the table: a crate each, their sum, and the whole run."""
    sums, whole = {}, None
    for line in Path(times).read_text(encoding="utf-8").splitlines():
        fields = line.split("\t")
        if fields[0] == WHOLE_RUN:
            whole = float(fields[1]), float(fields[2])
        else:
            sums[fields[0], fields[1]] = float(fields[2]), float(fields[3])
    listed = [line.partition(":")[0].split()[0] for line in open("crates.txt") if line.strip() and line[0] != "#"]
    yield "| crate | proofs | tests' proofs | edits | sum | at full speed |"
    yield "|---|---|---|---|---|---|"
    of_all = [0] * (len(KINDS) + 2)
    for crate in listed:
        kinds = [sums.get((crate, kind), (0, 0)) for kind in KINDS]
        seconds = [*(taken for taken, _ in kinds), sum(taken for taken, _ in kinds), sum(full for _, full in kinds)]
        of_all = [before + more for before, more in zip(of_all, seconds)]
        yield row(crate, seconds)
    yield row("all crates", of_all)
    yield ""
    yield (f"The whole run took {whole[0] / 60:.0f} minutes on {os.cpu_count()} processors, "
           f"{whole[1] / 60:.0f} minutes of processor time with linking, the runs and the system tests.")


def row(name, seconds):
    return "| " + " | ".join([name, *(f"{taken / 60:.1f}" for taken in seconds)]) + " |"


def write_table(times, document):
    """Puts the table into the document, between its marker lines."""
    text = Path(document).read_text(encoding="utf-8")
    before, begin, rest = text.partition(BEGIN)
    _, end, after = rest.partition(END)
    if not begin or not end:
        sys.exit(f"{document}: the marker lines of the table are missing")
    table = "\n".join(rows_of(times))
    Path(document).write_text(f"{before}{BEGIN}\n{table}\n{END}{after}", encoding="utf-8")


def main():
    match sys.argv[1:]:
        case ["measure", times, log, *command] if command:
            sys.exit(measure(times, log, command))
        case ["table", times, document]:
            write_table(times, document)
        case _:
            sys.exit(__doc__)


if __name__ == "__main__":
    main()
