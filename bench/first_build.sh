#!/usr/bin/env bash
# Measures the first build: ./build in a clean clone of the newest commit, with nothing kept of earlier ones. Prints when
# each crate was built, and then the minutes that it took, by the clock and of processors.
#
#     bench/first_build.sh
#
# rt keeps what it proves in each crate's out/, which a clean clone doesn't have, and in the folder rattle-kept beside its
# kit it notes where other clones find that. So the build gets a kit of its own: links to the parts of the one that is
# installed, in a folder with nothing beside it. (What rt starts is found from the place of bin/rt itself, so bin is
# copied.) It takes all processors for half an hour, 6 GB of memory and 4 GB of disk: run nothing beside it.
set -eu
top=$(readlink -f -- "$(dirname -- "$(readlink -f -- "$0")")/..")
kit=$(dirname -- "$(rt doc)")
room=$(mktemp -d "${TMPDIR:-/var/tmp}/first_build.XXXXXX")
trap 'rm -rf -- "$room"' EXIT

mkdir "$room/kit"
for part in "$kit"/*; do
    if [ "$(basename -- "$part")" = bin ]; then cp -r -- "$part" "$room/kit/"; else ln -s -- "$part" "$room/kit/"; fi
done
PATH=$room/kit/bin:$PATH
if [ "$(rt doc)" != "$room/kit/START-HERE.md" ] || [ -e "$room/rattle-kept" ]; then
    echo "rt doesn't take the place of bin/rt for that of its kit: what it keeps isn't known" >&2
    exit 1
fi

git clone --quiet -- "$top" "$room/clone"
cd "$room/clone"
touch "$room/begun"
TIMEFORMAT='%R %U %S'
{ time ./build >&3 2>&4; } 3>&1 4>&2 2>"$room/time"

begun=$(stat -c %Y "$room/begun")
for file in crates/*/out/rlib/stamp crates/osm_mirror/out/osm_mirror.stamp; do
    [ -e "$file" ] && echo "$(stat -c %Y "$file") $(cut -d/ -f2 <<<"$file")"
done | sort -n | awk -v begun="$begun" '{ printf "%5.1f %s\n", ($1 - begun) / 60, $2 }'
awk -v processors="$(nproc)" -v kit="$(rt version)" '{
    printf "the first build: %.1f minutes, and %.1f of processors; %d processors, %s\n", $1 / 60, ($2 + $3) / 60, processors, kit
}' "$room/time"
