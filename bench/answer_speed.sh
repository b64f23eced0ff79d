#!/usr/bin/env bash
# What each kind of statement costs `answer_plain`, beside one pass over all objects that tests a key: in process, over
# a mixed extract of 1,155,000 objects and one of a tenth of it, so that growth shows. The program
# bench/answer_speed.program is built over copies of the crates in a folder outside the repository (WORK, or a new
# one), so that the gate doesn't prove it.
#
#   bench/answer_speed.sh
set -eu
. "$(dirname "$0")/program.sh"
. "$(dirname "$0")/extract.sh"

build_program answer_speed 'opl_codec ql_plain ql_syntax osm_model anyhow'

echo "$(rt version)"
tell_machine
for share in 0.1 1; do
    extract "$share"
    out/answer_speed <"$file"
done
