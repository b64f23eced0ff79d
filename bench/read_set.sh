#!/usr/bin/env bash
# A mixed extract of 1,155,000 objects (some 110 MB) and one of a tenth of it, in the same run: `read_set` alone
# beside `osmium fileinfo -e` on the same text, and the peak memory of both. The program bench/read_speed.program is
# built over copies of the crates in a folder outside the repository (WORK, or a new one), so that the gate doesn't
# prove it.
#
#   apt-get install osmium-tool time
#   bench/read_set.sh [RUNS]
set -eu
runs=${1:-5}
. "$(dirname "$0")/program.sh"
. "$(dirname "$0")/extract.sh"

# Measures the programs over the extract of so many objects and this share: side_by_side OBJECTS SHARE.
side_by_side() {
    extract "$2"
    echo "$(stat -c %s "$file") bytes:"
    python3 "$top/bench/measure.py" "$1" "$runs" "$file" \
        "read_set" "out/read_speed" \
        "osmium fileinfo -e" "osmium fileinfo --no-progress -e -F opl -"
}

build_program read_speed 'opl_codec'

echo "$(rt version); $(osmium --version | head -n 1)"
tell_machine
echo "median of $runs runs"
side_by_side 115500 0.1
side_by_side 1155000 1
