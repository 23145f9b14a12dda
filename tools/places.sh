#!/usr/bin/env bash
# Counts the places of each point of docs/DESIGN-PASS.md in src/: at a commit, and as the files stand; with -l it lists them as they stand.
# Usage: tools/places.sh [-l] COMMIT
set -eu
cd "$(dirname "${BASH_SOURCE[0]}")/.."
list=0
if [ "${1:-}" = -l ]; then list=1; shift; fi
commit=$1
count() {
    local at now
    at=$(git grep -nE "$2" "$commit" -- 'crates/*/src/*.rt' | wc -l)
    now=$(git grep -nE "$2" -- 'crates/*/src/*.rt' | wc -l)
    printf '%-58s %5d %5d\n' "$1" "$at" "$now"
    if [ $list -eq 1 ]; then git grep -nE "$2" -- 'crates/*/src/*.rt' | cut -c1-150 || true; fi
}
refusals='NOT_CIRCUIT|BAD_ID|BAD_ROW|BAD_INDEX|BAD_WORD|FULL|EMPTY|TARGET|COLUMNS|LOOSE|DEGREE|PATHS|NO_ROOM|REPEAT|TABLE|FRAME|NOT_LOWERED'
count '1 own variants for none or for a refusal' '^    (Refused\(u64\)|Nothing|Nowhere|Full|Stay|Done),$'
count '1 numbers of refusals, as constants' "^pub const ($refusals): u64"
count '1 numbers of refusals, used' "(return|=>|\(|number:) *($refusals)[,;)]|^    ($refusals)$|const ($refusals): u64"
count '1 refusals taken as numbers' 'Refusal::[A-Za-z]+ as u64'
count '1 flags that say whether the values beside them count' '^    (pub )?(lowered|more): bool,'
count '3 loops by while or loop' '^ +(while .*|loop) \{$'
count '3 a counter that is stepped by hand' '^ +[a-z]+ (\+|-)= 1;$'
count '4 plain types with no more than Clone and Copy' '^#\[derive\(Clone, Copy\)\]'
count '4 equality and conversions by hand' 'fn (equal|same_words|is_key|same|row_word|op_kind|input_kind|decoded|words_of|bit|signed_word|signed|character|digit|number_of|start_number|read_number|number|as_[a-z]+)\('
count '5 parameters: a class table in three slices' 'least: &(mut )?\[u64\]'
count '5 parameters: an order and its rank' 'rank: &(mut )?\[u64\]'
count '5 parameters: tables of cells and challenges' 'challenges: &\[u64\]'
count '5 parameters: the two counts of columns' 'aux_count: u64'
count '5 clauses: the words are a circuit' 'not_circuit m\.(now|old) ≡ false'
count '5 clauses: place i is among the words' 'offset i \+ 6 ≤ length'
count '6 arrays of words of a fixed length' '= \[0u64; [0-9A-Z]+\]'
count '7 functions passed as pointers or dyn' '(&dyn|Box<dyn|: fn\()'
