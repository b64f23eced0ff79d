#!/usr/bin/env bash
# Changes beside a pack: `pack --add` of so many changed nodes beside `pack` of the changed set anew, `pack --compact` of the files beside
# it too, and `query` from the head and its files beside `query` from the new pack. Each is a run of its own program, with the files in the page cache. Prints sizes, processor
# time and peak memory.
#
#   apt-get install time
#   bench/pack_changes.sh [RUNS [SHARE [CHANGES]]]
set -eu
cd "$(dirname -- "$(readlink -f -- "$0")")"
. ./extract.sh
runs=${1:-5}
share=${2:-1}
changes=${3:-1000}

# The first call builds; help has the status 2.
built=$(../osm_mirror --help 2>&1) || [ $? -eq 2 ] || { echo "$built" >&2; exit 1; }
extract "$share" --marked

rt version
tell_machine
python3 pack_changes.py "$runs" "$file" "$changes"
