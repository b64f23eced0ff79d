#!/usr/bin/env bash
# Measures the building of trees: entries with keys of 9 bytes and values of 90, in both shapes, beside the hashing of
# the same bytes by `sha2` alone in the same run. The program bench/build_speed.program is built over copies of the
# crates in a folder outside the repository (WORK, or a new one), so that the gate doesn't prove it.
#
#   bench/tree_build.sh [RUNS]
set -eu
runs=${1:-3}
. "$(dirname "$0")/program.sh"
invariants build_speed has_tree has_tree
build_program build_speed 'tree_build tree_node sha2 anyhow'
python3 - "$runs" <<'END'
import os
import subprocess
import sys


def run(count, shape, *words):
    """What one run prints, and its peak memory in bytes."""
    child = subprocess.Popen(["out/build_speed", str(count), str(shape), *words], stdout=subprocess.PIPE, text=True)
    text = child.stdout.read()
    _, status, usage = os.wait4(child.pid, 0)
    child.returncode = os.waitstatus_to_exitcode(status)
    if child.returncode != 0:
        sys.exit(f"status {child.returncode}")
    return text.split(), usage.ru_maxrss * 1024


for count in (100_000, 1_000_000):
    _, entries = run(count, 0)
    for shape in (1, 2):
        for _ in range(int(sys.argv[1])):
            words, _ = run(count, shape)
            # (to hash the nodes, the other run fetches them all, which takes memory of its own)
            _, peak = run(count, shape, "alone")
            built, hashed, nodes, size = (int(words[at]) for at in (2, 6, 9, 11))
            extra = peak - entries - size
            print(
                f"{count:>9} entries, shape {shape}: built in {built} ms, hashed in {hashed} ms: {built / hashed:.2f} times;"
                f" {nodes} nodes of {size} bytes, {extra} bytes of memory beside them: {100 * extra / size:.1f} %"
            )
END
