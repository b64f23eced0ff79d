"""What bench/pack_mirror.sh measures: pack_mirror.py EXTRACT.opl ROUNDS."""

import statistics
import subprocess
import sys
import time
from pathlib import Path

from packs import QUERIES
from serve import PROGRAM, Client, interpreter, peak_mib

ASKED = ["a node by id", "a box", "[k=v], 1,000"]


def started(file):
    """A mirror over this file, and the seconds until it listened."""
    begun = time.perf_counter()
    mirror = subprocess.Popen([PROGRAM, "serve", file, "0"], bufsize=0, stderr=subprocess.PIPE)
    line = mirror.stderr.readline().decode()
    seconds = time.perf_counter() - begun
    if not line.startswith("osm_mirror listens"):
        sys.exit(line)
    return mirror, Client(int(line.split(",")[0].rpartition(":")[2])), seconds


def milliseconds(client, request):
    begun = time.perf_counter()
    client.get(request)
    return 1000 * (time.perf_counter() - begun)


def main():
    extract, rounds = Path(sys.argv[1]), int(sys.argv[2])
    pack = extract.with_suffix(".pack")
    if not pack.exists():
        subprocess.run([PROGRAM, "pack", extract, pack], check=True, stdout=subprocess.DEVNULL)
    with extract.open("rb") as lines:
        nodes = [line[1 : line.index(b" ")].decode() for line in lines if line.startswith(b"n")]
    middle = nodes[len(nodes) // 2]
    starts = []
    for _ in range(5):
        mirror, _, seconds = started(pack)
        starts.append(1000 * seconds)
        mirror.kill()
        mirror.wait()
    text, in_memory, seconds = started(extract)
    over_pack, from_pack, _ = started(pack)
    print(f"until it listens: over the pack {statistics.median(starts):.1f} ms, over the text {1000 * seconds:.0f} ms")
    print(f"memory then: over the pack {peak_mib(over_pack.pid):.0f} MiB, over the text {peak_mib(text.pid):.0f} MiB")
    for name in ASKED:
        query = QUERIES[name].format(middle=middle)
        for path in ["interpreter", "checked"]:
            request = interpreter(query, path)
            size, _ = in_memory.get(request)
            if from_pack.get(request)[0] != size:
                sys.exit(f"other answers to {query}")
            pairs = [(milliseconds(in_memory, request), milliseconds(from_pack, request)) for _ in range(rounds)]
            one, other = (statistics.median(it) for it in zip(*pairs))
            print(f"{name}, /api/{path}, {size:,} bytes: in memory {one:.3f} ms, over the pack {other:.3f} ms, {other / one:.1f} times")
    print(f"memory at the end: over the pack {peak_mib(over_pack.pid):.0f} MiB, over the text {peak_mib(text.pid):.0f} MiB")
    for mirror in (text, over_pack):
        mirror.kill()
        mirror.wait()


if __name__ == "__main__":
    main()
