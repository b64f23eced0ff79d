#!/usr/bin/env bash
# Packs on a server: `query` from a pack that nginx serves over loopback, beside the same from the file. Each answer is a run
# of its own program, with the pack in the page cache. Prints processor time and peak memory of the program, and the requests
# and bytes that nginx counted.
#
#   apt-get install nginx-light time
#   bench/http_places.sh [RUNS [SHARE]]
set -eu
cd "$(dirname -- "$(readlink -f -- "$0")")"
. ./extract.sh
runs=${1:-5}
share=${2:-1}

# The first call builds; help has the status 2.
built=$(../osm_mirror --help 2>&1) || [ $? -eq 2 ] || { echo "$built" >&2; exit 1; }
extract "$share" --marked

echo "$(rt version); $(nginx -v 2>&1)"
tell_machine
python3 http_places.py "$runs" "$file"
