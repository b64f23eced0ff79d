# What the scripts of this folder share that measure a program of their own. It is sourced by them.
#
#   build_program NAME USES
#
# builds bench/NAME.program, which names the libraries USES, in a folder outside the repository (WORK, or a new one), so that
# the gate doesn't prove it, and goes to the folder in which out/NAME then lies. Where ./test has just run, the program is
# built over the libraries that it has proved, else over copies of the crates, which are proved first. Where there is a file
# bench/FILE.invariants that belongs to a function of the program, the script copies it by `invariants`.
top=$(cd "$(dirname "${BASH_SOURCE[0]}")/.." && pwd)
work=${WORK:-$(mktemp -d)}

# invariants NAME FUNCTION FILE: the invariants of a function of the program.
invariants() {
    mkdir -p "$work/crates/$1/proofs/$2"
    sed "s/PROGRAM/$1/" "$top/bench/$3.invariants" > "$work/crates/$1/proofs/$2/Invariants.antt"
}

# The crates of the repository among these libraries, and all that they stand on.
crates_below() {
    awk -v uses="$1" '
        /^#/ || !NF { next }
        { name = $1; sub(/:.*/, "", name); below[name] = $0; sub(/^[^:]*:/, "", below[name]) }
        END {
            last = split(uses, waiting, " ")
            for (at = 1; at <= last; at++) {
                name = waiting[at]
                if (!(name in below) || name in known) continue
                known[name]
                print name
                count = split(below[name], others, " ")
                for (other = 1; other <= count; other++) waiting[++last] = others[other]
            }
        }' "$top/crates.txt"
}

# build_over_proved NAME USES: the same program over the libraries that the gate has left in crates/*/out, which tests/proved
# knows. The toolchain proves the program all the same, but nothing below it, so this takes minutes and not an hour.
build_over_proved() {
    local name=$1 uses=$2 kit library crate words
    kit=$(dirname -- "$(dirname -- "$(readlink -f -- "$(command -v rt)")")")
    words=(--extern "std=$kit/rlibs/std.rlib" -L "dependency=$kit/rlibs")
    for library in $uses; do
        if [ -d "$top/crates/$library" ]; then
            words+=(--extern "$library=$top/crates/$library/out/rlib/$library.rlib")
        else
            words+=(--extern "$library=$kit/rlibs/$library.rlib")
        fi
    done
    for crate in $(crates_below "$uses"); do
        words+=(-L "dependency=$top/crates/$crate/out/rlib")
    done
    mkdir -p "$work/crates/$name/src" "$work/crates/$name/out"
    cp "$top/bench/$name.program" "$work/crates/$name/src/main.rt"
    cd "$work/crates/$name"
    {
        "$kit/bin/rattle" build --crate-name "$name" src/main.rt "${words[@]}" \
            --antt-project "$kit/rattle/logic/antt-project.json" --logic-built "$kit/logic_built" --links "$name=" \
            --jobs "$(nproc)" --toolchain "$kit/toolchain" --backend llvm -o "out/$name.o" &&
            "$kit/bin/rattle-link" --target x86_64-unknown-linux-gnu --toolchain "$kit/toolchain" -o "out/$name" "out/$name.o" \
                "$kit/c/libos_c.a" "$kit/c/liblibc_c.a"
    } > "$work/build.log" 2>&1 || { tail -n 20 "$work/build.log"; exit 1; }
}

build_program() {
    local name=$1 uses=$2 crate part
    if "$top/tests/proved"; then
        build_over_proved "$name" "$uses"
        return
    fi
    mkdir -p "$work/crates/$name/src"
    echo "$name: $uses" > "$work/crates.txt"
    [ -d "$work/.git" ] || git init -q "$work"
    for crate in $(crates_below "$uses"); do
        grep "^$crate:" "$top/crates.txt" >> "$work/crates.txt"
        mkdir -p "$work/crates/$crate"
        for part in src specs proofs; do
            if [ -d "$top/crates/$crate/$part" ]; then
                cp -r "$top/crates/$crate/$part" "$work/crates/$crate/"
            fi
        done
    done
    cp "$top/bench/$name.program" "$work/crates/$name/src/main.rt"
    touch "$work/crates/$name/stdin"
    cd "$work/crates/$name"
    rt run > "$work/build.log" 2>&1 || { tail -n 20 "$work/build.log"; exit 1; }
}
