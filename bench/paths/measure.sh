#!/bin/sh
# How many instructions the walk, the reference counts and the distinct counts take, and how much stack. Needs rt, cc and valgrind.
#   bench/paths/measure.sh
here=$(cd "$(dirname "$0")" && pwd)
. "$here/../shared/prepare.sh"
prepare pathsbench arithmetic field layout circuit walking paths

echo "kind nodes check walk count distinct"
for of in "squarings 501" "doublings 401" "squarings 32" "comb 500" "comb 1000" "comb 2000" "comb 4000" "distinct 4000"; do
    set -- $of
    echo "$1 $2 $(told $1 $2 check) $(told $1 $2 walk) $(told $1 $2 count) $(told $1 $2 distinct)"
done
for call in check walk count distinct; do
    echo "$call: bytes of stack, a descending chain of 4096: $("$work/measure" chain 4096 $call stack); microseconds, a comb of 4000: $("$work/measure" comb 4000 $call time)"
done
