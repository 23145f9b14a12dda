#!/bin/sh
# How many instructions each reading takes, and how much stack. Needs rt, cc and valgrind.
#   bench/read/measure.sh
here=$(cd "$(dirname "$0")" && pwd)
. "$here/../shared/prepare.sh"
prepare readbench arithmetic field layout circuit walking reading classes paths read

calls="check zero degree base evaluate visible"
echo "kind nodes $calls"
for of in "squarings 501" "doublings 401" "mixed 500" "mixed 1000" "mixed 2000" "mixed 4000"; do
    set -- $of
    line="$1 $2"
    for call in $calls; do line="$line $(told $1 $2 $call)"; done
    echo "$line"
done
for call in $calls; do
    echo "$call: bytes of stack, a descending chain of 4096: $("$work/measure" chain 4096 $call stack); microseconds, mixed, 2000: $("$work/measure" mixed 2000 $call time)"
done
