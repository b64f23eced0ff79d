#!/usr/bin/env python3
"""Which functions the proofs of crates take their time for: bench/slow_functions.py [MOST]

Run it beside `rt ci`, `rt check` or `./test`. It watches the checks that run on this machine until none has run for a minute,
or until it is interrupted, and then prints, for each crate that it saw, the MOST functions (12 if it isn't said) that took longest, with the seconds by the
clock, and how many of these went into which modules of a function: `Lts` is its code, whose time grows faster than the number of
its exits; `Proof` is the search for the goals that no answer stands for; `Answers` are the written ones. Times are those of a
check that does one thing at a time, as those of `rt ci` do, and as long as it is watched: they grow with other work on the
machine.

The prover puts each module that it has checked into a folder of its own below /tmp, with a file of the module's name. So what a
module took is the time between that file and the one before it."""

import os
import re
import sys
import time
from collections import Counter, defaultdict
from pathlib import Path

QUIET = 60  # seconds without a check after which it ends


def crate_of(process):
    """The crate that a process checks, with `tests` after it where it checks that too; None where it has ended."""
    try:
        words = Path("/proc", process, "cmdline").read_text(errors="replace").split("\0")
        name = words[words.index("--crate-name") + 1]
    except (OSError, ValueError):
        return None
    return f"{name}, tests" if "--test" in words else name


def add_modules(folder, modules):
    """Adds the modules that a check has finished since the last look, each with the time when it did. (A file may be written
    once more later.)"""
    try:
        for file in os.scandir(folder):
            if file.name.startswith("Rattle-") and file.name not in modules:
                modules[file.name] = file.stat().st_mtime
    except FileNotFoundError:
        pass


def times_of(modules):
    """What each function took, and each of its modules."""
    whole, parts = Counter(), defaultdict(Counter)
    in_order = sorted((when, name) for name, when in modules.items())
    for (before, _), (now, name) in zip(in_order, in_order[1:]):
        words = re.sub(r"^Rattle-\w+-(?:proofs\.|specs\.)?|\.oantt$", "", name).split(".")
        functions = [it for it in words if it[:1].islower() or it[:1] == "+"]
        function = "::".join(functions) or f"({'.'.join(words)})"
        whole[function] += now - before
        parts[function][".".join(it for it in words if it not in functions) or "lemmas"] += now - before
    return whole, parts


def watch(seen):
    """Watches the checks of this machine until there are none any more."""
    last = time.monotonic()
    while time.monotonic() - last < QUIET:
        for folder in Path("/tmp").glob("rattle-logic-built-locked-*"):
            process = folder.name.split("-")[-2]
            crate = crate_of(process)
            if crate:
                add_modules(folder, seen.setdefault((crate, process), {}))
                last = time.monotonic()
        time.sleep(5)


def main():
    most = int(sys.argv[1]) if len(sys.argv) > 1 else 12
    seen = {}
    try:
        watch(seen)
    except KeyboardInterrupt:
        pass
    for (crate, _), modules in sorted(seen.items(), key=lambda it: it[0]):
        if len(modules) < 2:
            continue
        whole, parts = times_of(modules)
        print(f"{crate}: {max(modules.values()) - min(modules.values()):.0f} s")
        for function, seconds in whole.most_common(most):
            told = ", ".join(f"{name} {took:.1f}" for name, took in parts[function].most_common(3))
            print(f"  {seconds:6.1f}  {function}: {told}")


main()
