#!/usr/bin/env bash
# Checking in the page: an answer with a proof of 13 KB, one of 1 MB and one of 40 MB over the mixed extract of 1,155,000
# objects. In headless Chromium by out/osm_check.wasm and, where web/build made it, osm_check_32.wasm; beside the same
# static library as machine code in a process of its own, in turn. Prints the check alone, the first one and the mean of the
# later half, beside the median of the machine code; and the median of the whole call in the page, with an instance of its
# own and the bytes handed over; of five rounds the least of each. Besides, what the module's size is.
#
#   apt-get install chromium
#   bench/page.sh [RUNS]
set -eu
cd "$(dirname -- "$(readlink -f -- "$0")")"
. ./extract.sh
extract 1
# The first call builds; help has the status 2.
built=$(../osm_mirror --help 2>&1) || [ $? -eq 2 ] || { echo "$built" >&2; exit 1; }
../web/build
kit=$(dirname -- "$(dirname -- "$(readlink -f -- "$(command -v rt)")")")
gcc -O2 -o "$data/page_check" page_check.c ../crates/osm_check_web/out/libosm_check_web.a "$kit/c/liblibc_c.a"
echo "$(rt version); $(chromium --version 2>/dev/null)"
tell_machine
exec python3 -B page.py "$file" "$data" "${1:-11}"
