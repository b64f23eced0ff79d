#!/usr/bin/env bash
# A mirror over a pack beside a mirror over the same text in memory: the time until each listens, and on one kept connection
# the time of a node by its id, a box of some 100 nodes and a tag of 1,000 objects, alone and with the proof; and each
# mirror's memory. The pack lies in the page cache. The requests go to both mirrors in turn.
#
#   bench/pack_mirror.sh [ROUNDS [SHARE]]
set -eu
cd "$(dirname -- "$(readlink -f -- "$0")")"
. ./extract.sh
extract "${2:-1}" --marked
# The first call builds; help has the status 2.
built=$(../osm_mirror --help 2>&1) || [ $? -eq 2 ] || { echo "$built" >&2; exit 1; }
rt version
tell_machine
exec python3 -B pack_mirror.py "$file" "${1:-200}"
