#!/usr/bin/env bash
# The objects of a mixed extract of 1,155,000 objects, and of one of a tenth of it, written as OPL, as JSON and as XML,
# side by side in one process. The program bench/forms_speed.program is built over copies of the crates in a folder
# outside the repository (WORK, or a new one), so that the gate doesn't prove it.
#
#   bench/forms.sh
set -eu
. "$(dirname "$0")/program.sh"
. "$(dirname "$0")/extract.sh"

build_program forms_speed 'opl_codec osm_forms osm_model anyhow'

echo "$(rt version)"
tell_machine
for share in 0.1 1; do
    extract "$share"
    out/forms_speed <"$file"
done
