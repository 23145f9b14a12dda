#!/bin/sh
# Times and instruction counts of the fields' products. Needs cargo and valgrind.
set -eu
cd "$(dirname "$0")/../.."
(cd crates/field_abi && rt lib) >/dev/null
cd bench/field
cargo build --release --offline --quiet
bench=target/release/field_bench
"$bench"

# What one product more costs: the difference of two runs, so that all else cancels.
count() {
    valgrind --tool=callgrind --callgrind-out-file=/dev/null "$bench" "$1" "$2" 2>&1 | sed -n 's/.*Collected : //p'
}
echo 'instructions a product (callgrind)'
for name in ours_base base_plain base_straight base_branched base_montgomery \
    ours_extension extension_plain extension_nine extension_five extension_three extension_branched extension_montgomery; do
    few=$(count "$name" 1000)
    many=$(count "$name" 101000)
    echo "$name $few $many" | awk '{ printf "  %-22s%7.1f\n", $1, ($3 - $2) / 100000 }'
done
