#!/usr/bin/env python3
"""Holds the project's definitions to the frozen answers: has the checker compute them.

usage: oracle/definitions.py COUNT [FILE..]      (FILE: vectors/*.txt by default)

Makes a crate above `frame` in a copy of the repository whose one statement is a table: in each row the answers
of the definition `frames` to a circuit's frames, and the Rust's. Of each file the first COUNT circuits are taken
(a circuit with sums, which frames have not, only up to its first sum; at most 60 frames each, since the
definitions enumerate paths). Prints what the checker says. Not in the gate: it takes minutes.
"""
import os
import shutil
import subprocess
import sys
import tempfile

HERE = os.path.dirname(os.path.abspath(__file__))
ROOT = os.path.dirname(HERE)
MOST_FRAMES = 60

HEAD = """-- Frozen answers of the Rust, computed by the definitions. Assumes nothing.
use Rattle.std.specs.Prelude.{ℕ, List, [], ◌∷◌, T}
use Rattle.layout.specs.Lists.{agree}
use Rattle.framing.specs.Texts.{bytes, program, texts_compute}

"""


def circuits(path):
    """The frames and answers of each circuit, up to its first sum."""
    taken, frames, answers, summed = [], [], [], False
    for line in open(path):
        line = line.rstrip('\n')
        if line.startswith(('c', '.')):
            if frames:
                taken.append((frames[:MOST_FRAMES], answers[:MOST_FRAMES]))
            frames, answers, summed = [], [], False
        elif line.startswith('s'):
            summed = True
        elif line.startswith('>') and not summed:
            frames.append(line[1:])
        elif line.startswith('<') and not summed:
            answers.append(line[1:])
    return taken


def text(lines):
    return '"' + ''.join(line + '\\n' for line in lines) + '"'


def main():
    count = int(sys.argv[1])
    folder = os.path.join(HERE, 'vectors')
    files = sys.argv[2:] or [os.path.join(folder, f) for f in sorted(os.listdir(folder)) if f.endswith('.txt')]
    rows, modules = 0, []
    with tempfile.TemporaryDirectory() as work:
        repo = os.path.join(work, 'repo')
        shutil.copytree(os.path.join(ROOT, 'crates'), os.path.join(repo, 'crates'), ignore=shutil.ignore_patterns('out', 'data', 'must-fail'))
        shutil.copy(os.path.join(ROOT, 'crates.txt'), repo)
        crate = os.path.join(repo, 'crates', 'frozen')
        os.makedirs(os.path.join(crate, 'specs'))
        os.makedirs(os.path.join(crate, 'src'))
        open(os.path.join(crate, 'src', 'lib.rt'), 'w').write('#![tactic(auto)]\n')
        for path in files:
            taken = circuits(path)[:count]
            for first in range(0, len(taken), 10):
                part = taken[first:first + 10]
                name = os.path.basename(path)[:-4].capitalize() + str(first)
                modules.append(name)
                rows += len(part)
                table = ''.join(f'    (program {text(f)}, bytes {text(a)})\n    ∷ ' for f, a in part)
                body = f'unfoldable pub table : List (List ℕ × List ℕ)\ntable =\n{table}[]\n\n'
                body += 'pub holds : T (agree table)\nunfolding texts_compute table\nholds = tt\n'
                open(os.path.join(crate, 'specs', name + '.antt'), 'w').write(HEAD + body)
        open(os.path.join(crate, 'specs', 'Lib.antt'), 'w').write(''.join(f'pub mod {m}\n' for m in modules))
        with open(os.path.join(repo, 'crates.txt'), 'a') as f:
            f.write('frozen: framing lowering building reading walking layout arithmetic\n')
        out = subprocess.run(['rt', 'check'], cwd=crate, capture_output=True, text=True)
        lines = [l for l in (out.stdout + out.stderr).split('\n') if 'error' in l or l.startswith('rt: ') and 'begins with' not in l]
        print('\n'.join(l[:300].replace(work, '') for l in lines))
        print(f'{rows} circuits, exit status {out.returncode}')
        sys.exit(out.returncode)


if __name__ == '__main__':
    main()
