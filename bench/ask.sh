#!/usr/bin/env bash
# Queries over a mixed extract of 1,155,000 objects (SHARE times as many): `osm_mirror ask` of a node by its id beside
# `osmium getid`, and of a tag with its value beside `osmium tags-filter`, on the same file in the same run. Beside them
# `osm_mirror publish`, which reads the set and builds its trees as `ask` does: what `ask` takes more, it takes to
# answer, to prove and to check. It ends where an answer isn't of the objects that osmium gives.
#
#   apt-get install osmium-tool time
#   bench/ask.sh [RUNS] [SHARE]
set -eu
cd "$(dirname -- "$(readlink -f -- "$0")")"
runs=${1:-5}
share=${2:-1}
. ./extract.sh
extract "$share"

# The first call builds; help has the status 2.
built=$(../osm_mirror --help 2>&1) || [ $? -eq 2 ] || { echo "$built" >&2; exit 1; }
program=../crates/osm_mirror/out/osm_mirror

# The names of the objects that a command prints of the file, and how many.
names() {
    sh -c "$1" <"$file" | cut -d ' ' -f 1
}

objects=$(wc -l <"$file")
id=$(sed -n "$((objects / 2))p" "$file" | sed 's/^n\([0-9]*\) .*/\1/')
ask_id="$program ask 'node($id);out;'"
getid="osmium getid --no-progress -F opl -f opl -o - - n$id"
ask_tag="$program ask 'nwr[\"highway\"=\"primary7\"];out;'"
# Without -R it would add the nodes and members of what it finds.
tags_filter="osmium tags-filter --no-progress -R -F opl -f opl -o - - nwr/highway=primary7"

echo "$(rt version); $(osmium --version | head -n 1)"
tell_machine
echo "$objects objects, $(stat -c %s "$file") bytes; median of $runs runs"
for pair in id tag; do
    case $pair in
    id) ask=$ask_id osmium=$getid name="osmium getid" ;;
    tag) ask=$ask_tag osmium=$tags_filter name="osmium tags-filter" ;;
    esac
    found=$(names "$ask")
    [ "$found" = "$(names "$osmium")" ] || { echo "$ask: other objects than $osmium gives" >&2; exit 1; }
    echo "$(wc -l <<<"$found") objects by $pair:"
    python3 measure.py "$objects" "$runs" "$file" "osm_mirror ask" "$ask" "$name" "$osmium" \
        "osm_mirror publish" "$program publish $file"
done
