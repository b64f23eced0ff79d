#!/usr/bin/env bash
# Queries answered from the trees of a snapshot, in process and warm, beside SQLite with an index for each question, over
# a mixed extract of 1,155,000 objects (SHARE times as many) of which some are marked, in the same run; and the same
# answers with their proofs, by `prove`. The program bench/evaluate_speed.program is built over copies of the crates in a
# folder outside the repository (WORK, or a new one), so that the gate doesn't prove it.
#
#   bench/evaluate.sh [SHARE]
set -eu
share=${1:-1}
. "$(dirname "$0")/program.sh"
. "$(dirname "$0")/extract.sh"
extract "$share" --marked

build_program evaluate_speed 'opl_codec osm_index osm_prove ql_eval ql_syntax tree_node anyhow'

echo "$(rt version); SQLite $(python3 -c 'import sqlite3; print(sqlite3.sqlite_version)')"
tell_machine
echo "osm_mirror, $(wc -l <"$file") objects:"
out/evaluate_speed <"$file"
echo "SQLite, the same:"
python3 "$top/bench/sqlite_answers.py" <"$file"
