#!/usr/bin/env bash
# What everyday queries cost beside an older commit: the instructions that evaluating one takes, over the trees of a set in
# memory, counted by valgrind, so that other work on the machine changes nothing. The set is the extract of the given share of
# 1,155,000 objects. OLD names a checkout of the older commit; in it and here the libraries that the program uses are proved
# already, as ./test or `rt lib` leaves them. It ends where the two answer otherwise. The last column is with a budget that the
# query keeps. Of the two nodes that are asked for by their ids, 1002 is in the set and 1001 isn't.
#
#   apt-get install valgrind
#   OLD=CHECKOUT bench/everyday.sh [SHARE]
set -eu
share=${1:-0.01}
: "${OLD:?a checkout to compare with}"
. "$(dirname -- "$(readlink -f -- "$0")")/program.sh"
. "$top/bench/extract.sh"
extract "$share" --marked
uses='opl_codec osm_forms osm_index ql_eval ql_syntax anyhow'
new=$top old=$(readlink -f -- "$OLD") room=$work

# Builds a program over the libraries of a checkout; its path is then `built`. The other words are given to sed for its text.
built_over() {
    top=$1 work=$room/$2
    mkdir -p "$work/bench"
    [ "$top" = "$new" ] || cp "$new/bench/everyday.program" "$top/bench/"
    cp "$new/bench/everyday.program" "$work/bench/plain"
    sed "${@:3}" "$work/bench/plain" >"$top/bench/$2.program"
    build_over_proved "$2" "$uses"
    rm "$top/bench/$2.program"
    built=$work/crates/$2/out/$2
    top=$new
}

built_over "$old" everyday_before -e ''
before=$built
built_over "$new" everyday_now -e ''
now=$built
built_over "$new" everyday_within -e 's/use ql_eval::evaluate;/use osm_forms::Form;\nuse ql_eval::evaluate_within;/' \
    -e 's/    evaluate(rt.alloc(), \(.*\))?;/    evaluate_within(rt.alloc(), Form::Opl, \1, Some(u64::MAX))?;/'
within=$built

# How many instructions one evaluation takes: those of eleven less those of one, by ten.
count() {
    local runs
    local -a seen=()
    for runs in 1 11; do
        valgrind --tool=callgrind --callgrind-out-file=/dev/null --log-file="$room/log" "$1" "$runs" "$2" <"$file" >"$room/answer"
        seen+=("$(sed -n 's/.*Collected : //p' "$room/log")")
    done
    echo $(((seen[1] - seen[0]) / 10))
}

rt version
tell_machine
printf '%-44s %12s %12s %8s %12s %8s\n' instructions before now times 'with budget' times
while IFS= read -r query; do
    was=$(count "$before" "$query")
    mv "$room/answer" "$room/expected"
    is=$(count "$now" "$query")
    cmp -s "$room/answer" "$room/expected" || { echo "$query: the two answer otherwise" >&2; exit 1; }
    bound=$(count "$within" "$query")
    cmp -s "$room/answer" "$room/expected" || { echo "$query: a budget changes the answer" >&2; exit 1; }
    awk -v query="$query" -v was="$was" -v is="$is" -v bound="$bound" 'BEGIN {
        printf "%-44s %12d %12d %8.4f %12d %8.4f\n", query, was, is, is / was, bound, bound / was
    }'
done <<'QUERIES'
node(1002);out meta;
node(1001);out meta;
node(52.0,13.0,52.06,13.06);out meta;
nwr[mark=seldom];out meta;
way(77);(._;>;);out meta;
node(52.0,13.0,52.06,13.06);way(bn);(._;>;);out;
nwr[mark=seldom][highway];out ids;
QUERIES
