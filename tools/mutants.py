#!/usr/bin/env python3
"""Changes the definitions of a crate, one place at a time, and prints the changes that are still proved: what its worked examples and laws leave open.

usage: tools/mutants.py CRATE...

In a copy of the repository each change stands as an edit that must be refused, and `rt must-fail` tries them all: some seconds a change. A change that
nobody can tell from the definition (the default of a list that is never read beyond its end) is printed too; the reader judges.
"""
import glob
import os
import re
import shutil
import subprocess
import sys
import tempfile

ROOT = os.path.dirname(os.path.dirname(os.path.abspath(__file__)))
# modules that define nothing which a contract cites
PASSED_OVER = {'Lib', 'Examples', 'BoardExamples', 'Samples', 'Computing', 'Starred', 'Beside'}
# lines that no change is made in
OTHERS = ('use ', '--', 'pub ', 'record', 'infix', 'unfolding', 'abbrev', 'unfoldable')

PRELUDE = 'Rattle.std.specs.Prelude'
NUMBER = r'(?<![\w.⁺])\d+(?![\w⁺])'
TEST = r'\(\d+, [^∷]*?\)'
# what is changed, into what, and the names that the change needs
CHANGES = [
    (r'\bltb\b', lambda m: 'leb', (PRELUDE, ['ltb', 'leb'])),
    (r'\bleb\b', lambda m: 'ltb', (PRELUDE, ['ltb', 'leb'])),
    ('&&', lambda m: '||', (PRELUDE, ['◌&&◌', '◌||◌'])),
    (r'\|\|', lambda m: '&&', (PRELUDE, ['◌&&◌', '◌||◌'])),
    (r'\btrue\b', lambda m: 'false', (PRELUDE, ['true', 'false'])),
    (r'\bfalse\b', lambda m: 'true', (PRELUDE, ['true', 'false'])),
    (r'\bnot \(', lambda m: '(', None),
    (NUMBER, lambda m: str(int(m[0]) + 1), None),
    (NUMBER, lambda m: str(max(int(m[0]), 1) - 1), None),
    (r'\bsuc ', lambda m: '', None),
    (r' \+ ', lambda m: ' - ', (PRELUDE, ['◌+◌', '◌-◌'])),
    (r' - ', lambda m: ' + ', (PRELUDE, ['◌+◌', '◌-◌'])),
    (r'\bmax\b', lambda m: 'min', (PRELUDE, ['min', 'max'])),
    (r'\bmin\b', lambda m: 'max', (PRELUDE, ['min', 'max'])),
    (r'\.c([012])\b', lambda m: f'.c{(int(m[1]) + 1) % 3}', None),
    (r'\.main\b', lambda m: '.aux', None),
    (r'\.aux\b', lambda m: '.main', None),
    (r'\.(main|aux)\b', lambda m: '.next_' + m[1], None),
    (r'\bl r\b', lambda m: 'r l', None),
    (r'\br l\b', lambda m: 'l r', None),
    (r'\bl\b', lambda m: 'r', None),
    (r'\br\b', lambda m: 'l', None),
    (r'\bAdd\b', lambda m: 'Multiply', None),
    (r'\bMultiply\b', lambda m: 'Add', None),
    # a test of a call left out, and two in the other order
    (TEST + r' ∷ (?=[(\[])', lambda m: '', None),
    (f'({TEST}) ∷ ({TEST}) ∷', lambda m: f'{m[2]} ∷ {m[1]} ∷', None),
]


def imported(text, needed):
    """The edit of a `use` line that brings in what a change needs: none if it is there, or None if there is no such line."""
    module, names = needed
    line = re.search(rf'^use {re.escape(module)}\.\{{([^}}]*)\}}$', text, re.M)
    if not line:
        return None
    have = [n.strip() for n in line[1].split(',')]
    more = [n for n in names if n not in have]
    return [(line[0], f'use {module}.{{{", ".join(have + more)}}}')] if more else []


def changed(line):
    """Each change of the right side of a line, with what it needs."""
    begins = 0 if line.startswith(' ') else line.find(' = ') + 2
    for pattern, into, needed in CHANGES:
        for m in re.finditer(pattern, line):
            new = line[:m.start()] + into(m) + line[m.end():]
            if m.start() >= begins and new != line:
                yield new, needed


def edits(path):
    """Number of the line, and the pairs of old and new text, of each change of a file."""
    text = open(path).read()
    for number, line in enumerate(text.split('\n'), 1):
        if not line.strip() or line.strip().startswith(OTHERS) or text.count(line) != 1:
            continue
        for new, needed in dict(changed(line)).items():
            before = imported(text, needed) if needed else []
            if before is not None:
                yield number, before + [(line, new)]


def write(repo, crate):
    folder = f'{repo}/crates/{crate}/must-fail'
    os.makedirs(folder)
    count = 0
    for path in sorted(glob.glob(f'{repo}/crates/{crate}/specs/*.antt')):
        name = os.path.basename(path)[:-len('.antt')]
        if name in PASSED_OVER:
            continue
        for number, pairs in edits(path):
            count += 1
            with open(f'{folder}/{name}_{number}_{count}.edit', 'w') as f:
                f.write(f'file: specs/{name}.antt\n' + ''.join(f'old: {a}\nnew: {b}\n' for a, b in pairs))
    return count


def main():
    if len(sys.argv) < 2:
        sys.exit(__doc__)
    with tempfile.TemporaryDirectory() as work:
        repo = os.path.join(work, 'repo')
        shutil.copytree(ROOT, repo, symlinks=True, ignore=shutil.ignore_patterns('.git', 'must-fail', 'out', 'target'))
        count = sum(write(repo, crate) for crate in sys.argv[1:])
        out = subprocess.run(['rt', 'must-fail', *sys.argv[1:]], cwd=repo, capture_output=True, text=True, errors='replace').stdout
        left = re.findall(r'must-fail (\w+)/(\w+)\.edit: NOT REFUSED', out)
        for crate, label in left:
            old, new = open(f'{repo}/crates/{crate}/must-fail/{label}.edit').read().strip().split('\n')[-2:]
            print(f'{crate}/specs/{label.split("_")[0]}.antt:{label.split("_")[1]}\n  {old}\n  {new}')
        unread, refused = out.count(': BAD EDIT: '), out.count(': refused, as it must be')
        print(f'{count} changes: {unread} cannot be read, {refused} refused, {len(left)} still proved, {count - unread - refused - len(left)} not tried')


if __name__ == '__main__':
    main()
