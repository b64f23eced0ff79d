#!/usr/bin/env bash
# Processor minutes of the tests, crate by crate: proofs, tests' proofs, edits; as they were taken, and at the
# processors' full speed. Runs ./test, writes what it printed to bench/data/gate.log and the seconds of each crate's
# proofs, tests and edits to bench/data/gate.times, and puts the table into docs/HACKING.md. Ends as ./test does.
#
#   bench/gate.sh              runs ./test (half an hour and more)
#   bench/gate.sh --table      writes the table of the last run again
set -u
cd "$(dirname -- "$(readlink -f -- "$0")")/.." || exit 1
mkdir -p bench/data

status=0
if [ "${1:-}" != --table ]; then
    python3 -B bench/gate.py measure bench/data/gate.times bench/data/gate.log ./test
    status=$?
    tail -n 1 bench/data/gate.log
fi
python3 -B bench/gate.py table bench/data/gate.times docs/HACKING.md || exit 1
exit "$status"
