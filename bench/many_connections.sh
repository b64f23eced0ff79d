#!/usr/bin/env bash
# Many connections at a time: requests a second over 64 kept connections and over one, for a node by its id over the mixed
# extract of 115,500 objects, beside nginx (one process) with a static file of the same answer, each in turn with wrk; the
# processor time of a request of both; and the time of a request alone and beside 63 silent connections.
#
#   apt-get install nginx-light wrk
#   bench/many_connections.sh [SECONDS]
set -eu
cd "$(dirname -- "$(readlink -f -- "$0")")"
. ./extract.sh
extract 0.1
# The first call builds; help has the status 2.
built=$(../osm_mirror --help 2>&1) || [ $? -eq 2 ] || { echo "$built" >&2; exit 1; }
echo "$(rt version); $(nginx -v 2>&1)"
tell_machine
exec python3 -B many_connections.py "$file" "${1:-5}"
