#!/bin/sh
# The proved library beside the Rust: builds both, measures, counts instructions, draws the plot. Needs rt, cargo, valgrind, python3 and what the
# oracle needs; no network. What it prints and draws goes to bench/compare/target.
#   bench/compare/run.sh            all of it
#   bench/compare/run.sh build      build only
set -eu
here=$(cd "$(dirname "$0")" && pwd)
repo=$(cd "$here/../.." && pwd)
work=$(mktemp -d)
trap 'rm -rf "$work"' EXIT

"$repo/oracle/run" --build
(cd "$repo/crates/abi" && rt lib >"$work/log" 2>&1) || { tail -20 "$work/log"; exit 1; }

# A repository of its own: building, and a crate that exports its inner calls. They ask what the inner forms ask, so they are no part of the library.
mkdir -p "$work/crates/inner/src" "$here/target/inner"
for crate in arithmetic field layout circuit classes building build; do
    tar -C "$repo/crates" --exclude="$crate/out" -cf - "$crate" | tar -C "$work/crates" -xf -
done
cp "$here/inner.rt.txt" "$work/crates/inner/src/lib.rt"
grep -E '^(arithmetic|field|layout|circuit|classes|building|build):' "$repo/crates.txt" >"$work/crates.txt"
echo 'inner staticlib: build building classes circuit layout field arithmetic' >>"$work/crates.txt"
(cd "$work/crates/inner" && rt lib >"$work/log" 2>&1) || { tail -20 "$work/log"; exit 1; }
cp "$work/crates/inner/out/libinner.a" "$here/target/inner/"

cd "$here"
cargo build --release --offline --quiet
[ "${1-}" != build ] || exit 0
compare=target/release/compare
"$compare" measure | tee target/measured.txt
python3 plot.py target/measured.txt >target/growth.svg
"$compare" edges
"$compare" stack

# Instructions of one span, and of them the filling of local arrays, which callgrind counts by the byte.
count() {
    span=$1
    shift
    valgrind --tool=callgrind --callgrind-out-file="$work/out" --collect-atstart=no --toggle-collect="*${span%%=*}*" "$compare" once "$span" "$@" >/dev/null 2>&1
    callgrind_annotate "$work/out" | awk -v span="$span" -v circuit="$*" '
        /PROGRAM TOTALS/ { all = $1 } /:__memset/ { fill = $1 }
        END { printf "%s\t%s\t%s\tof them filling %s\n", span, circuit, all, fill ? fill : 0 }'
}
for size in 500 1000 2000 4000; do
    for circuit in "products $size 8" "selectors $size 12"; do
        for span in span_build_rust span_build_public span_build_inner; do count $span $circuit; done
    done
done
for circuit in "products 1865 8" "selectors 1910 12"; do
    for span in span_evaluate_rust span_evaluate_ours; do count $span $circuit; done
done
for circuit in "products 1500 8" "selectors 1200 12"; do
    for target in 2 3 4 5; do
        for span in span_lower_rust span_lower_ours; do count $span=$target $circuit; done
    done
done
# One row and 201: what is done once a call, and 200 further rows. Beside them one evaluation of the circuit before it was lowered.
for circuit in "products 250 8" "products 2000 8" "selectors 250 12" "selectors 1200 12"; do
    for rows in 1 201; do
        for span in span_fill_rust span_fill_ours; do count $span=$rows $circuit; done
    done
    count span_evaluate_ours $circuit
done
