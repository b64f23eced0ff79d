#!/usr/bin/env bash
# The relay: the time of a query by id, of a box and of a tag over the mixed extract of 1,155,000 objects, asked of a relay
# before a mirror on loopback, beside the same query asked of the mirror's /api/checked, in the same run, by the same client,
# a connection a query. Medians; also the processor time of relay and mirror a query.
#
#   bench/relay.sh [REQUESTS]
set -eu
cd "$(dirname -- "$(readlink -f -- "$0")")"
. ./extract.sh
extract 1
# The first call builds; help has the status 2.
built=$(../osm_mirror --help 2>&1) || [ $? -eq 2 ] || { echo "$built" >&2; exit 1; }
rt version
tell_machine
exec python3 -B relay.py "$file" "${1:-1000}"
