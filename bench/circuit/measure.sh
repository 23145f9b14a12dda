#!/bin/sh
# How many instructions the check for NOT_CIRCUIT takes, and how much stack. Needs rt, cc and valgrind.
#   bench/circuit/measure.sh
here=$(cd "$(dirname "$0")" && pwd)
. "$here/../shared/prepare.sh"
prepare circuitbench arithmetic field layout circuit

echo "kind nodes instructions (answer)"
for kind in grown chain cycle; do
    for nodes in 0 500 1000 2000 4000; do echo "$kind $nodes $(told $kind $nodes check)"; done
done
for kind in grown chain cycle; do
    echo "$kind 4000: microseconds $("$work/measure" $kind 4000 check time)"
    echo "$kind 4096: stack $("$work/measure" $kind 4096 check stack) bytes"
done
