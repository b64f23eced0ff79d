#!/usr/bin/env python3
"""Measures programs side by side: measure.py OBJECTS RUNS INPUT NAME COMMAND [NAME COMMAND ..].

Runs each command (a text for `sh`) in turn, RUNS times over, with the file INPUT on standard input. Prints a line
for each: objects, name, processor seconds (user and system, of all threads; the median), peak memory in MiB (the
greatest), and bytes of peak memory an object; and then how the first compares with each other one: the median of the
ratios of their processor seconds in one run, with the least and the greatest.
"""

import os
import statistics
import subprocess
import sys
import tempfile


def measured(command, given):
    """Processor seconds and peak bytes of one run of the command, which has to end with status 0."""
    with open(given, "rb") as stdin, tempfile.NamedTemporaryFile("r") as told:
        # The peak is told by GNU time, which is small itself: a child of this process begins with the peak of Python.
        words = ["/usr/bin/time", "-q", "-o", told.name, "-f", "%M", "sh", "-c", f"exec {command}"]
        child = subprocess.Popen(words, stdin=stdin, stdout=subprocess.DEVNULL)
        _, status, usage = os.wait4(child.pid, 0)
        child.returncode = os.waitstatus_to_exitcode(status)
        if child.returncode != 0:
            sys.exit(f"{command}: status {child.returncode}")
        return usage.ru_utime + usage.ru_stime, int(told.read()) * 1024


def main():
    objects, runs, given = int(sys.argv[1]), int(sys.argv[2]), sys.argv[3]
    programs = list(zip(sys.argv[4::2], sys.argv[5::2]))
    taken = {name: [] for name, _ in programs}
    for _ in range(runs):
        for name, command in programs:
            taken[name].append(measured(command, given))
    for name, figures in taken.items():
        seconds = statistics.median(seconds for seconds, _ in figures)
        peak = max(peak for _, peak in figures)
        print(f"{objects:>9}  {name:<16} {seconds:8.3f} s {peak / 2**20:9.1f} MiB {peak / objects:8.0f} bytes an object")
    first, *others = taken
    for name in others:
        ratios = [ours / theirs for (ours, _), (theirs, _) in zip(taken[first], taken[name])]
        print(f"{first} takes {statistics.median(ratios):.2f} times {name} ({min(ratios):.2f} to {max(ratios):.2f})")


if __name__ == "__main__":
    main()
