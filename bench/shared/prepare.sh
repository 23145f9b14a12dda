# Sourced by the measuring scripts, with `here` set to their folder.
set -e
repo=$(cd "$here/../.." && pwd)
work=$(mktemp -d)
trap 'rm -rf "$work"' EXIT

# A repository of its own: the crates that are measured, and NAME, which exports them.
#   prepare NAME CRATE...
prepare() {
    name=$1
    shift
    mkdir -p "$work/crates/$name/src"
    for crate in "$@"; do
        tar -C "$repo/crates" --exclude="$crate/out" -cf - "$crate" | tar -C "$work/crates" -xf -
        grep "^$crate:" "$repo/crates.txt" >>"$work/crates.txt"
    done
    cp "$here/$name.rt.txt" "$work/crates/$name/src/lib.rt"
    echo "$name staticlib: $*" >>"$work/crates.txt"
    if [ -f "$here/$name.proof.txt" ]; then
        mkdir -p "$work/crates/$name/proofs/bench_classes"
        cp "$here/$name.proof.txt" "$work/crates/$name/proofs/bench_classes/Answers.antt"
    fi
    (cd "$work/crates/$name" && rt lib >"$work/log.txt" 2>&1) || { tail -20 "$work/log.txt"; exit 1; }
    cc -O1 -g -I "$repo/bench/shared" -o "$work/measure" "$here/measure.c" "$work/crates/$name/out/lib$name.a" -lpthread
}

# Instructions of one call: KIND NODES CALL
instructions() {
    valgrind --tool=callgrind --callgrind-out-file="$work/out" --collect-atstart=no --toggle-collect="bench_$3" "$work/measure" "$@" 2>&1 | awk '/Collected/ {print $4}'
}

# The instructions of a call, and in parentheses the refusal's number, or 0.
told() {
    echo "$(instructions "$@") ($("$work/measure" "$@"))"
}
