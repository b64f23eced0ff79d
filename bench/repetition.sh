#!/usr/bin/env bash
# Queries that repeat one statement over a large set: `.a->.b1;.a->.b2;..` gives the set one name after the other, and
# `.a<;.a<;..` asks for its parents again and again, as others do for a box, for a scan with a filter, and for what a filter
# keeps of the set. The processor time and the peak of memory of one `osm_mirror ask`, and beside it those of an older
# build, if OLD names its program. What is read and published beforehand is measured too, by a query without the repeated
# statements. It ends where two programs answer otherwise.
#
#   apt-get install time
#   [OLD=PROGRAM] bench/repetition.sh [OBJECTS] [NAMES] [ASKS] [RUNS]
set -eu
cd "$(dirname -- "$(readlink -f -- "$0")")"
objects=${1:-100000}
names=${2:-500}
asks=${3:-50}
runs=${4:-1}
. ./extract.sh

# The first call builds; help has the status 2.
built=$(../osm_mirror --help 2>&1) || [ $? -eq 2 ] || { echo "$built" >&2; exit 1; }
new=../crates/osm_mirror/out/osm_mirror

room=$(mktemp -d)
trap 'rm -rf "$room"' EXIT
# Nodes with a tag, of which each hundred are in a way.
awk -v objects="$objects" 'BEGIN {
    for (n = 1; n <= objects; n++) printf "n%d Ta=1 x%.4f y%.4f\n", n, n % 1000 / 10000, int(n / 1000) / 10000
    for (w = 1; w * 100 <= objects; w++) {
        printf "w%d N", w
        for (n = w * 100 - 99; n < w * 100; n++) printf "n%d,", n
        printf "n%d\n", w * 100
    }
}' >"$room/set.opl"

begun='node["a"]->.a;'
ended='.a out ids 1;'
echo "$begun$ended" >"$room/none"
awk -v begun="$begun" -v ended="$ended" -v count="$names" \
    'BEGIN { printf "%s", begun; for (n = 1; n <= count; n++) printf ".a->.b%d;", n; print ended }' >"$room/names"
# Writes a query that repeats a statement.
repeat() {
    awk -v begun="$begun" -v ended="$ended" -v count="$asks" -v statement="$2" \
        'BEGIN { printf "%s", begun; for (n = 1; n <= count; n++) printf "%s", statement; print ended }' >"$room/$1"
}
repeat asks '.a<;'
repeat boxes 'node(-90,-180,90,180);'
repeat scans 'node["b"!="c"];'
repeat filters 'node.a["a"="1"]["b"!="c"];'

rt version
tell_machine
for query in none names asks boxes scans filters; do
    case $query in
    none) echo "no repetition:" ;;
    names) echo "$names names for one set:" ;;
    asks) echo "the parents of one set, $asks times:" ;;
    boxes) echo "the nodes in a box, $asks times:" ;;
    scans) echo "all nodes that lack a tag, $asks times:" ;;
    filters) echo "the nodes of one set that two filters keep, $asks times:" ;;
    esac
    ask_new="$new ask \"\$(cat $room/$query)\""
    programs=("this build" "$ask_new")
    if [ -n "${OLD-}" ]; then
        ask_old="$OLD ask \"\$(cat $room/$query)\""
        [ "$(sh -c "$ask_new" <"$room/set.opl")" = "$(sh -c "$ask_old" <"$room/set.opl")" ] ||
            { echo "$query: the two programs answer otherwise" >&2; exit 1; }
        programs+=("before" "$ask_old")
    fi
    python3 measure.py "$objects" "$runs" "$room/set.opl" "${programs[@]}"
done
