#!/usr/bin/env bash
# Checks a crate with some of its must-fail edits, one at a time, in a copy of the repository, and prints the first errors of each: a fact that fails, or
# only a proof that no longer fits the text ("is not in scope").
#   tools/try_edits.sh CRATE LABEL...
set -euo pipefail
root=$(cd "$(dirname "${BASH_SOURCE[0]}")/.." && pwd)
crate=$1
shift
work=$(mktemp -d)
trap 'rm -rf "$work"' EXIT
(cd "$root" && git ls-files -z --cached --others --exclude-standard crates crates.txt | tar -c --null -T -) | tar -x -C "$work"
mv "$work/crates/$crate/must-fail" "$work/edits"
cp -r "$work/crates/$crate" "$work/whole"
for label in "$@"; do
    echo "--- $label"
    rm -rf "$work/crates/$crate/src" "$work/crates/$crate/specs" "$work/crates/$crate/proofs"
    cp -r "$work/whole/." "$work/crates/$crate/"
    python3 - "$work/crates/$crate" "$work/edits/$label.edit" <<'EDIT'
import sys
crate, edit = sys.argv[1:]
old = path = None
for line in open(edit, encoding='utf-8').read().split('\n'):
    if line.startswith('file: '):
        path = f'{crate}/{line[6:].strip()}'
    elif line.startswith('old: '):
        old = line[5:]
    elif line.startswith('new:'):
        text = open(path, encoding='utf-8').read()
        if text.count(old) != 1:
            sys.exit(f'stands {text.count(old)} times, and not once: {old}')
        with open(path, 'w', encoding='utf-8') as f:
            f.write(text.replace(old, line[4:].removeprefix(' ')))
EDIT
    (cd "$work/crates/$crate" && rt check 2>&1 || true) | grep 'error\|it is not proved' | grep -v 'was not admitted\|was rejected\|were not checked' | head -3 | cut -c1-400 || true
done
