#!/usr/bin/env bash
# Proofs: how large they are beside the data set, and what it takes to check one. Over mixed extracts of 11,550, 115,500
# and 1,155,000 objects: a node by its id, a box of about 100 nodes, and a tag with about 10,000 results in the largest.
# `osm_mirror check` runs beside `sha256sum` of the proof and `osmium cat` of the answer (Debian's osmium-tool), and
# `osm_mirror publish` beside `osmium cat` of the extract and `sha256sum`, in the same run. Prints sizes in bytes,
# processor time and peak memory.
#
#   apt-get install osmium-tool time
#   bench/proofs.sh [RUNS]
set -eu
cd "$(dirname -- "$(readlink -f -- "$0")")"
runs=${1:-5}
. ./extract.sh
program=../crates/osm_mirror/out/osm_mirror

# The sizes of a query's answer and proof over an extract, and the time to check them.
proved() {
    local file=$1 objects=$2 name=$3 query=$4 root answer=$data/answer.opl proof=$data/proof check
    printf '%s' "$query" >"$data/query"
    root=$("$program" prove "$file" "$data/query" "$answer" "$proof")
    check="$program check $root $data/query $answer $proof"
    [ "$($check)" = yes ] || { echo "$check: doesn't say yes" >&2; exit 1; }
    echo "$objects objects, $(stat -c %s "$file") bytes; $name, $query: answer $(stat -c %s "$answer"), proof $(stat -c %s "$proof")"
    python3 measure.py "$objects" "$runs" /dev/null check "$check" \
        "sha256sum" "sha256sum $proof" "osmium cat" "osmium cat --no-progress -F opl -f opl -o /dev/null --overwrite $answer"
}

command -v osmium >/dev/null || { echo "osmium isn't installed" >&2; exit 1; }
# The first call builds; help has the status 2.
built=$(../osm_mirror --help 2>&1) || [ $? -eq 2 ] || { echo "$built" >&2; exit 1; }
echo "$(rt version); $(osmium --version | head -n 1)"
tell_machine
echo "median of $runs runs"
# The box's half edge in 1e-4 degree, so that it holds about as many nodes in each extract.
for row in '0.01 11550 1000' '0.1 115500 316' '1 1155000 100'; do
    read -r share objects half <<<"$row"
    extract "$share"
    edge=$(printf '%04d' "$half")
    proved "$file" "$objects" 'an id' 'node(4998);out;'
    proved "$file" "$objects" 'a box' "node(51.$((10000 - half)),12.$((10000 - half)),52.$edge,13.$edge);out;"
    proved "$file" "$objects" 'a tag' 'nwr["name"="Weg"];out;'
    python3 measure.py "$objects" "$runs" /dev/null publish "$program publish $file" \
        "cat, sha256sum" "osmium cat --no-progress -F opl -f opl -o - $file | sha256sum"
done
