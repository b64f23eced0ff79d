#!/usr/bin/env bash
# Measures walks over the tree of 1,000,000 entries with keys of 9 bytes and values of 90: for single keys, and over all
# of them, beside std's `BTreeMap` of the same entries in the same run. The program bench/walk_speed.program is built
# over copies of the crates in a folder outside the repository (WORK, or a new one), so that the gate doesn't prove it.
#
#   bench/tree_walk.sh [RUNS]
set -eu
runs=${1:-3}
. "$(dirname "$0")/program.sh"
invariants walk_speed has_tree has_tree
build_program walk_speed 'tree_walk tree_build tree_node anyhow'
for _ in $(seq "$runs"); do
    out/walk_speed 1000000
done
