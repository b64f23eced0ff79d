#!/usr/bin/env bash
# What a desk costs beside what it stands on, over a mixed extract of 1,155,000 objects (SHARE times as many), in
# process: 10,000 requests for a node by `Gate::feed` and by `Desk::step`; 100 changes by `Snapshot::apply`, and the time
# by which their publication at a desk delays the next request. Each is measured in pairs, of which either comes first in
# turn, and both snapshots are of the same set. The program bench/desk_speed.program is built over copies of the crates in
# a folder outside the repository (WORK, or a new one), so that the gate doesn't prove it.
#
#   bench/desk.sh [SHARE]
set -eu
share=${1:-1}
. "$(dirname "$0")/program.sh"
. "$(dirname "$0")/extract.sh"
extract "$share"

build_program desk_speed 'opl_codec osm_index osm_gate osm_desk anyhow'

echo "$(rt version)"
tell_machine
echo "$(wc -l <"$file") objects, $(stat -c %s "$file") bytes:"
out/desk_speed <"$file"
