#!/usr/bin/env bash
# Serving: requests a second for a node by its id over the mixed extract of 1,155,000 objects, on one kept connection,
# beside nginx serving a static file of the same answer to the same client in the same run; the first byte of a large
# answer; memory after 100,000 requests.
#
#   apt-get install nginx-light
#   bench/serve.sh [REQUESTS]
set -eu
cd "$(dirname -- "$(readlink -f -- "$0")")"
. ./extract.sh
extract 1
# The first call builds; help has the status 2.
built=$(../osm_mirror --help 2>&1) || [ $? -eq 2 ] || { echo "$built" >&2; exit 1; }
echo "$(rt version); $(nginx -v 2>&1)"
tell_machine
exec python3 -B serve.py "$file" "${1:-20000}"
