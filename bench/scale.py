#!/usr/bin/env python3
"""What bench/scale.sh measures: scale.py EXTRACT.opl. Prints what an extract of one size costs."""

import os
import re
import subprocess
import sys
import tempfile
import time
from pathlib import Path

HERE = Path(__file__).resolve().parent
PROGRAM = HERE.parent / "crates/osm_mirror/out/osm_mirror"

# (the box has some hundred nodes at each size)
QUERIES = {
    "an id": "node({middle});out meta;",
    "a box": "node(52.0,13.0,{north:.7f},{east:.7f});out meta;",
    "a tag of a thousandth": "nwr[mark=seldom];out meta;",
}


def measured(words):
    """What the words print, their processor seconds, and their peak memory in bytes."""
    with tempfile.NamedTemporaryFile("r") as told:
        timed = ["/usr/bin/time", "-q", "-o", told.name, "-f", "%U %S %M", *map(str, words)]
        printed = subprocess.run(timed, check=True, capture_output=True, stdin=subprocess.DEVNULL).stdout
        user, system, peak = told.read().split()
    return printed, float(user) + float(system), int(peak) * 1024


def reads_of(words):
    """How many times the words read their pack, and how many bytes, by strace."""
    with tempfile.NamedTemporaryFile("r") as told:
        traced = ["strace", "-f", "-e", "trace=pread64", "-o", told.name, *map(str, words)]
        subprocess.run(traced, check=True, capture_output=True, stdin=subprocess.DEVNULL)
        lengths = [int(it) for it in re.findall(r"pread64\(.*\) = (\d+)$", told.read(), re.MULTILINE)]
    return len(lengths), sum(lengths)


def served(extract):
    """How long `serve` takes until it listens, and what it holds then."""
    began = time.monotonic()
    with subprocess.Popen([PROGRAM, "serve", extract, "0"], stderr=subprocess.PIPE) as serving:
        serving.stderr.readline()
        took = time.monotonic() - began
        status = Path(f"/proc/{serving.pid}/status").read_text(encoding="ascii")
        held, peak = (int(re.search(rf"{name}:\s+(\d+)", status)[1]) * 1024 for name in ("VmRSS", "VmHWM"))
        serving.terminate()
    return took, held, peak


def main():
    extract = Path(sys.argv[1])
    pack = extract.with_suffix(".pack")
    with extract.open("rb") as lines:
        objects = sum(1 for _ in lines)
    size = os.path.getsize(extract)
    print(f"{objects:,} objects, {size / 1e6:,.1f} MB of OPL")
    _, seconds, peak = measured([PROGRAM, "publish", extract])
    print(f"publish: {seconds:.1f} s, at most {peak / 2**20:,.0f} MiB, {peak / size:.2f} times the OPL")
    printed, seconds, peak = measured([PROGRAM, "pack", extract, pack])
    root = printed.decode().strip()
    print(
        f"pack: {seconds:.1f} s, at most {peak / 2**20:,.0f} MiB; the file has {os.path.getsize(pack) / 1e6:,.1f} MB,"
        f" {os.path.getsize(pack) / size:.2f} times the OPL"
    )
    took, held, peak = served(extract)
    print(f"serve: listens after {took:.1f} s, holds {held / 2**20:,.0f} MiB, at most {peak / 2**20:,.0f} MiB")
    side = 0.02 / (objects / 1_155_000) ** 0.5
    for name, query in QUERIES.items():
        text = query.format(middle=3 * int(objects / 3.465), north=52 + side, east=13 + side)
        words = [PROGRAM, "query", root, pack, text]
        measured(words)
        printed, seconds, peak = measured(words)
        reads, length = reads_of(words)
        lines = printed.count(b"\n")
        print(
            f"{name}: {lines:,} lines of {len(printed) / 1e3:,.1f} KB; {reads:,} reads of"
            f" {length / 1e3:,.1f} KB; {seconds * 1e3:.0f} ms, at most {peak / 2**20:.1f} MiB"
        )


if __name__ == "__main__":
    main()
