#!/usr/bin/env bash
# Measures the reading, fetching and digesting of nodes, each beside an alternative in the same run.
# The program bench/tree_speed.program is built over a copy of the crate tree_node in a folder outside the
# repository (WORK, or a new one), so that the gate doesn't prove it.
set -eu
. "$(dirname "$0")/program.sh"
build_program tree_speed 'tree_node sha2 anyhow'
out/tree_speed
# The same bytes by the system's own program.
head -c 268435456 /dev/zero | tr '\0' a > "$work/message"
start=$(date +%s%N)
sha256sum "$work/message" > "$work/sum"
end=$(date +%s%N)
echo "sha256sum of as many bytes: $((268435456 * 1000 / (end - start))) MB/s"
