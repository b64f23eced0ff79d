#!/usr/bin/env bash
# The time of applying 1, 100 and 10,000 changes to the snapshot of a mixed extract of 1,155,000 objects (SHARE times as
# many), in process, beside building that snapshot in the same run, with the nodes that came and went; and the peak
# memory. The program bench/apply_speed.program is built over copies of the crates in a folder outside the repository
# (WORK, or a new one), so that the gate doesn't prove it.
#
#   bench/apply.sh [SHARE]
set -eu
share=${1:-1}
. "$(dirname "$0")/program.sh"
. "$(dirname "$0")/extract.sh"
extract "$share"

build_program apply_speed 'osm_model opl_codec osm_index anyhow'

echo "$(rt version)"
tell_machine
echo "$(wc -l <"$file") objects, $(stat -c %s "$file") bytes:"
python3 - "$file" <<'END'
import os
import subprocess
import sys

with open(sys.argv[1], "rb") as stdin:
    child = subprocess.Popen(["out/apply_speed"], stdin=stdin)
_, status, usage = os.wait4(child.pid, 0)
print(f"peak memory {usage.ru_maxrss / 1024:.0f} MiB", flush=True)
sys.exit(os.waitstatus_to_exitcode(status))
END
