#!/usr/bin/env bash
# Light proofs: how large proofs are in edition 2 and in edition 3, and what changes cost, by a model in Python, since no
# program makes edition 3 yet. Three forms of edition 3 are compared: trees cut as in edition 2, one item in 8 marked in tree 1,
# and in trees 1 and 4. The sets are the marked extract of SHARE (0.1) times 1,155,000 objects, 261,000 objects in towns
# (make_towns.py), and the borders of countries that come with JOSM, where Debian's josm and osmium-tool are installed.
#
#   bench/light_sizes.sh [SHARE]     five minutes of one processor and 1.1 GB at share 0.1
#   bench/light_sizes.sh check       compares the model over larger sets with values from outside, in a minute and a half
set -eu
cd "$(dirname -- "$(readlink -f -- "$0")")"
. ./extract.sh
if [ "${1:-}" = check ]; then
    exec python3 -B light_check.py
fi
extract "${1:-0.1}" --marked
towns=$data/towns.opl
[ -f "$towns" ] || { python3 -B make_towns.py >"$towns.part"; mv "$towns.part" "$towns"; }
sets=("$file" "$towns")
borders=/usr/share/josm/data/boundaries.osm
if [ -f "$borders" ] && command -v osmium >/dev/null; then
    osmium cat --no-progress -f opl -o "$data/borders.opl" --overwrite "$borders"
    sets+=("$data/borders.opl")
fi
for objects in "${sets[@]}"; do
    python3 -B light_sizes.py "$objects"
    python3 -B light_changes.py "$objects"
done
