#!/usr/bin/env bash
# The roots over trees of a mixed extract of 1,155,000 objects (some 110 MB) and of one of a tenth of it, in the same
# run: `osm_mirror publish` in both editions beside `osmium cat` (OPL to OPL) and `sha256sum` over as many bytes as all
# nodes have; peak memory, and memory once the snapshot is built, beside the file's bytes. The program
# bench/publish_trees.program is built over copies of the crates in a folder outside the repository (WORK, or a new
# one), so that the gate doesn't prove it.
#
#   apt-get install osmium-tool time
#   bench/publish_trees.sh [RUNS]
set -eu
runs=${1:-3}
. "$(dirname "$0")/program.sh"
. "$(dirname "$0")/extract.sh"

# The nodes of an extract and what they take, from the program: nodes_of FILE EDITION.
nodes_of() {
    python3 - "$1" "$2" <<'END'
import os
import signal
import subprocess
import sys

file, edition = sys.argv[1:]
with open(file, "rb") as stdin:
    child = subprocess.Popen(["out/publish_trees", edition], stdin=stdin, stdout=subprocess.PIPE, text=True)
read, built = child.stdout.readline(), child.stdout.readline()
# The program stands still while its memory is looked at.
os.kill(child.pid, signal.SIGSTOP)
with open(f"/proc/{child.pid}/status") as status:
    held = next(int(line.split()[1]) * 1024 for line in status if line.startswith("VmRSS"))
os.kill(child.pid, signal.SIGCONT)
words = child.stdout.read().split()
_, status, usage = os.wait4(child.pid, 0)
child.returncode = os.waitstatus_to_exitcode(status)
if child.returncode != 0:
    sys.exit(f"status {child.returncode}")
size, peak = os.path.getsize(file), usage.ru_maxrss * 1024
print(
    f"edition {edition}: {read.strip()}, {built.strip()}; {words[1]} nodes of {words[3]} bytes; memory once built"
    f" {held / size:.2f} times the file, peak {peak / size:.2f} times",
    file=sys.stderr,
)
print(words[3])
END
}

# Measures the programs over the extract of so many objects and this share: side_by_side OBJECTS SHARE.
side_by_side() {
    local objects=$1 edition bytes
    extract "$2"
    echo "$(stat -c %s "$file") bytes:"
    for edition in 1 2; do
        bytes=$(nodes_of "$file" "$edition")
        truncate -s "$bytes" "$data/zeros"
        python3 "$top/bench/measure.py" "$objects" "$runs" "$file" \
            "publish --edition $edition" "$top/crates/osm_mirror/out/osm_mirror publish $file --edition $edition" \
            "osmium cat, sha256sum" "sh -c 'osmium cat --no-progress -F opl -f opl -o - - >/dev/null; sha256sum <$data/zeros'"
    done
    rm -f "$data/zeros"
}

# The first call builds; help has the status 2.
built=$("$top/osm_mirror" --help 2>&1) || [ $? -eq 2 ] || { echo "$built" >&2; exit 1; }
build_program publish_trees 'osm_index opl_codec tree_node anyhow'

echo "$(rt version); $(osmium --version | head -n 1)"
tell_machine
echo "median of $runs runs"
side_by_side 115500 0.1
side_by_side 1155000 1
