#!/bin/sh
# How many instructions the check and the classes take, and how much stack. Needs rt, cc and valgrind.
#   bench/classes/measure.sh
here=$(cd "$(dirname "$0")" && pwd)
. "$here/../shared/prepare.sh"
prepare classbench arithmetic field layout circuit classes

echo "kind nodes check equal classes"
for of in "grown 500" "grown 1000" "grown 2000" "grown 4000" "chain 500" "chain 1000" "chain 2000" "chain 4000" "grid 500" "grid 1000" "grid 2000" "grid 4000" "towers 402"; do
    set -- $of
    echo "$1 $2 $(instructions $1 $2 check) $(instructions $1 $2 equal) $(instructions $1 $2 classes)"
done
echo "bytes of stack, a descending chain of 4096: $("$work/measure" chain 4096 classes stack)"
