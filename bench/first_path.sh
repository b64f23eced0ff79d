#!/usr/bin/env bash
# One node by its id out of an OPL file: `osm_mirror ask` beside `osmium getid` (Debian's osmium-tool) on the same
# text in the same run. Prints processor time, peak memory, and how both grow from 100,000 to 1,000,000 nodes.
#
#   apt-get install osmium-tool time
#   bench/first_path.sh [RUNS]
set -eu
cd "$(dirname -- "$(readlink -f -- "$0")")"
runs=${1:-5}
data=data
mkdir -p "$data"

# A file of nodes, made once: nodes NAME ARGUMENTS..
nodes() {
    local file=$data/$1.opl
    shift
    if [ ! -f "$file" ]; then
        python3 make_nodes.py "$@" >"$file.part"
        mv "$file.part" "$file"
    fi
}

# Measures both programs over a file of so many nodes, at the id of its middle line.
side_by_side() {
    local objects=$1 file=$data/$2.opl id command
    id=$(sed -n "$((objects / 2))p" "$file" | sed 's/^n\([0-9]*\) .*/\1/')
    local ask="../crates/osm_mirror/out/osm_mirror ask 'node($id);out;'"
    local getid="osmium getid --no-progress -F opl -f opl -o - - n$id"
    for command in "$ask" "$getid"; do
        if [ "$(sh -c "$command" <"$file" | cut -d ' ' -f 1)" != "n$id" ]; then
            echo "$command: gives another answer than n$id" >&2
            exit 1
        fi
    done
    python3 measure.py "$objects" "$runs" "$file" "osm_mirror ask" "$ask" "osmium getid" "$getid"
}

# The first call builds; help has the status 2.
built=$(../osm_mirror --help 2>&1) || [ $? -eq 2 ] || { echo "$built" >&2; exit 1; }
nodes nodes-100000 100000
nodes nodes-1000000 1000000
nodes untagged-1000000 1000000 --tagged 0

echo "$(rt version); $(osmium --version | head -n 1)"
echo "$(nproc) processors, $(sed -n 's/^model name\s*: //p' /proc/cpuinfo | head -n 1), Linux $(uname -r)"
echo "median of $runs runs"
echo "one node in ten with tags:"
side_by_side 100000 nodes-100000
side_by_side 1000000 nodes-1000000
echo "no tags:"
side_by_side 1000000 untagged-1000000
