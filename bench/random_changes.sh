#!/usr/bin/env bash
# Applies random changes to the snapshots of random sets, and compares each root with that of a snapshot that is built
# of the changed set; 1,000 cases in each run of the program bench/random_changes.program, which is built over copies of
# the crates in a folder outside the repository (WORK, or a new one), so that the gate doesn't prove it.
#
#   bench/random_changes.sh [THOUSANDS] [SEED]
set -eu
thousands=${1:-100}
seed=${2:-1}
. "$(dirname "$0")/program.sh"
build_program random_changes 'opl_codec osm_index anyhow'

differing=0
for ((run = 0; run < thousands; run++)); do
    told=$(python3 "$top/bench/random_changes.py" $((seed + run)) 1000 | out/random_changes)
    [ "$told" = "1000 cases" ] || { differing=1; echo "seed $((seed + run)): $told"; }
done
echo "$thousands,000 cases from seed $seed on$([ $differing -eq 0 ] && echo ": all as built of the changed set")"
exit $differing
