#!/usr/bin/env bash
# Measures how fast queries of 60,000 bytes are read, beside a plain scan of the same bytes in the same run. The
# program bench/query_speed.program is built over copies of the crates in a folder outside the repository (WORK, or a
# new one), so that the gate doesn't prove it.
#
#   bench/query_parse.sh [RUNS]
set -eu
runs=${1:-3}
. "$(dirname "$0")/program.sh"
build_program query_speed 'ql_syntax anyhow'
for _ in $(seq "$runs"); do
    out/query_speed
done
