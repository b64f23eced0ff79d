# What the scripts of this folder share that measure over a mixed extract. It is sourced by them.
#
#   extract SHARE [--marked]   makes the extract of so many times 1,155,000 objects, once; `file` is then its path
#   tell_machine               prints the processors and the system
data=$(cd "$(dirname "${BASH_SOURCE[0]}")" && pwd)/data
mkdir -p "$data"

extract() {
    file=$data/extract${2:+-${2#--}}-$1.opl
    [ -f "$file" ] || { python3 "$data/../make_extract.py" --share "$@" >"$file.part"; mv "$file.part" "$file"; }
}

tell_machine() {
    echo "$(nproc) processors, $(sed -n 's/^model name\s*: //p' /proc/cpuinfo | head -n 1), Linux $(uname -r)"
}
