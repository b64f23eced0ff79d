#!/usr/bin/env bash
# Packs: `pack` beside `publish` on one extract, and `query` from the pack beside SQLite's shell on a database file with the
# same objects and an index for each question, and beside `ask`, which reads the whole set. Each answer is a run of its own
# program, with the files in the page cache. Prints sizes, processor time and peak memory.
#
#   apt-get install sqlite3 time
#   bench/packs.sh [RUNS [SHARE]]
set -eu
cd "$(dirname -- "$(readlink -f -- "$0")")"
. ./extract.sh
runs=${1:-5}
share=${2:-1}

# The first call builds; help has the status 2.
built=$(../osm_mirror --help 2>&1) || [ $? -eq 2 ] || { echo "$built" >&2; exit 1; }
extract "$share" --marked

echo "$(rt version); SQLite $(sqlite3 --version | cut -d ' ' -f 1)"
tell_machine
python3 packs.py "$runs" "$file"
