#!/usr/bin/env bash
# Content coding: the bytes of answers, and of answers with their proofs, as the mirror sends them and as nginx compresses
# them with the configuration of examples/nginx.conf, over the mixed extract of SHARE (1, 0.1 or 0.01) times 1,155,000
# objects; and the processor time that nginx takes for a MB, plain and compressed, in turn in the same run. For the times a
# small server says the mirror's responses again, so that they don't depend on the mirror.
#
#   apt-get install nginx-light openssl
#   bench/content_coding.sh [ROUNDS [SHARE]]
set -eu
cd "$(dirname -- "$(readlink -f -- "$0")")"
. ./extract.sh
rounds=${1:-5} share=${2:-1}
# A box of about 100 nodes, and two tags.
case $share in
    1) set -- 51.9900,12.9900,52.0100,13.0100 '"mark"="seldom"' '"name"="Weg"' ;;
    0.1) set -- 51.9684,12.9684,52.0316,13.0316 '"name"="Weg"' '"mark"="often"' ;;
    0.01) set -- 51.9000,12.9000,52.1000,13.1000 '"name"="Weg"' '"mark"="often"' ;;
    *) echo "SHARE is 1, 0.1 or 0.01" >&2; exit 2 ;;
esac
extract "$share" --marked
# The first call builds; help has the status 2.
built=$(../osm_mirror --help 2>&1) || [ $? -eq 2 ] || { echo "$built" >&2; exit 1; }
echo "$(rt version); $(nginx -v 2>&1)"
tell_machine
exec python3 -B content_coding.py "$file" "$rounds" "$@"
