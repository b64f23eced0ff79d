#!/usr/bin/env bash
# How time, memory, disk and the bytes of a query grow with a set: extracts of 115,500, 1,155,000 and 11,550,000 objects,
# or of the given shares of 1,155,000. The largest needs some 12 GB of disk in
# bench/data, 8 GB of memory and ten minutes.
#
#   apt-get install strace time
#   bench/scale.sh [SHARE..]
set -eu
cd "$(dirname -- "$(readlink -f -- "$0")")"
. ./extract.sh

# The first call builds; help has the status 2.
built=$(../osm_mirror --help 2>&1) || [ $? -eq 2 ] || { echo "$built" >&2; exit 1; }
rt version
tell_machine
[ $# -gt 0 ] || set -- 0.1 1 10
for share in "$@"; do
    extract "$share" --marked
    python3 scale.py "$file"
done
