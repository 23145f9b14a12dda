#!/usr/bin/env python3
"""Brings the names of specs/ and proofs/ to one spelling: words in snake case.

usage: python3 tools/respell.py [--list] LIBRARY      at the top, once, right after the kit's port.py; LIBRARY: the folder of the kit's own sources

A definition, lemma, field, constructor or variable of this repository in camel case (rowWord), or with a dash between its words (is-one),
gets underscores (row_word, is_one). Names of the library, names that a check makes (goals and what their records hold), names of src/ and
all strings stay. A function's theorem is f_spec. Where the new name is a name of ours already, both are printed.
"""

import os
import re
import subprocess
import sys

CAMEL = re.compile(r"^[a-z][a-z0-9]*[A-Z]\w*'*$|^[a-z]\w*[a-z0-9][A-Z]\w*'*$")
DASH = re.compile(r"^[a-zμκ]\w*(-\w+)+'*$")
TOKEN = re.compile(r"(?<![\w'-])[A-Za-zμκ_][\w']*(?:-[\w']+)*")
MADE = re.compile(r"-(requires|init|preserved|smaller|test|holds|again|less|spec|reads|raw|result)(-\d+)?$")
# spelled as a name of the source, a field or a word of the library, or hiding another of ours
OTHERWISE = {}


def snake(w):
    w = w.replace("-", "_")
    w = re.sub(r"([a-z0-9])([A-Z])", r"\1_\2", w)
    return w[0] + w[1:].lower() if not w[0].isupper() else w


def files(*ends):
    for folder, dirs, names in os.walk("crates"):
        dirs[:] = sorted(d for d in dirs if d not in ("out", "data"))
        for n in sorted(names):
            if n.endswith(ends):
                yield os.path.join(folder, n)


def text(p):
    with open(p, encoding="utf-8") as f:
        return f.read()


def library(folder):
    said = subprocess.run(["grep", "-rhoE", "--include=*.antt", "--include=*.rt", r"[A-Za-z_][A-Za-z0-9_']*(-[A-Za-z0-9_']+)*", folder], capture_output=True, text=True).stdout
    return set(said.split())


def walked(p):
    """Whether a file is the proof of a function: its own names are those that the check asks for."""
    return re.search(r"/proofs/.*/(Proof|Answers|Invariants)\.antt$", p) is not None


def own():
    """The names of ours: those that stand in a signature, of definitions, fields, constructors, and variables in camel case."""
    names, made = set(), set()
    for p in files(".antt"):
        t = text(p)
        for line in t.splitlines():
            if line.lstrip().startswith("--"):
                continue
            m = re.match(r"\s*(?:abbrev |unfoldable )?(?:pub )?([^\s(){}:]+) :(?: |$)", line)
            if m and DASH.match(m[1]):
                (made if walked(p) and re.search(r": tie\.|statement", line) else names).add(m[1])
            for w in TOKEN.findall(line):
                if CAMEL.match(w):
                    names.add(w)
    return names, made


def mapping(folder):
    lib = library(folder)
    names, made = own()
    new = {}
    for w in sorted(names):
        if w in OTHERWISE:
            new[w] = OTHERWISE[w]
        elif w in made or w in lib or (DASH.match(w) and MADE.search(w)):
            continue
        else:
            new[w] = snake(w)
    # a lemma that would have its function's name, or another of ours, gets _lem
    taken = {b for a, b in new.items() if CAMEL.match(a)} | signatures() | sources()
    for w in new:
        if w not in OTHERWISE and DASH.match(w) and not CAMEL.match(w) and new[w] in taken:
            new[w] += "_lem"
    return new


def signatures():
    """Every name that a signature gives."""
    return {m[1] for p in files(".antt") for m in re.finditer(r"(?m)^\s*(?:abbrev |unfoldable )?(?:pub )?([^\s(){}:]+) :(?: |$)", text(p))}


def sources():
    """Every name of a function, a field, a parameter, a variable or a constant of src/."""
    return {m[1] for p in files(".rt") for m in re.finditer(r"(?:fn |let |mut |const |struct |enum )([A-Za-z_]\w*)|\b([a-z_]\w*): ", text(p)) if m[1]} | {m[1] for p in files(".rt") for m in re.finditer(r"\b([a-z_]\w*): ", text(p))}


def collisions(new):
    used = signatures()
    back = {}
    code = sources()
    for a, b in sorted(new.items()):
        if b in code:
            print("source:", a, b)
    for a, b in new.items():
        back.setdefault(b, []).append(a)
    for b, olds in sorted(back.items()):
        if len(olds) > 1 or b in used:
            print("together:", b, "from", " ".join(olds), "(and itself)" if b in used else "")


def respelled(t, new, prose):
    """The text with our names respelled; in prose, a dash is left alone but between backticks."""
    def word(m):
        w = m[0]
        if w in new:
            return new[w]
        return w

    out = []
    for line in t.split("\n"):
        mark = line.lstrip()
        if mark.startswith(prose):
            line = TOKEN.sub(lambda m: new.get(m[0], m[0]) if CAMEL.match(m[0]) else m[0], line)
            line = re.sub(r"`[^`]*`", lambda q: TOKEN.sub(word, q[0]), line)
        else:
            line = TOKEN.sub(word, line)
        out.append(line)
    return "\n".join(out)


def source(t, new):
    """A file of src/: comments, ghost use lines and clauses; strings and code keep theirs."""
    out = []
    for line in t.split("\n"):
        mark = line.lstrip()
        if re.match(r"ghost use |requires|ensures|ghost |//", mark) or "ensures {" in line or "requires {" in line:
            line = TOKEN.sub(lambda m: new.get(m[0], m[0]) if CAMEL.match(m[0]) or not mark.startswith("//") else m[0], line)
        out.append(line)
    return "\n".join(out)


def theorem(t):
    """x-y-spec, the theorem of the function x_y, is x_y_spec."""
    return re.sub(r"(?<![\w'-])([a-z][\w]*(?:-\w+)*)-spec(?![\w'-])", lambda m: m[1].replace("-", "_") + "_spec", t)


def main(argv):
    show = "--list" in argv
    folder = [a for a in argv if not a.startswith("--")][0]
    new = mapping(folder)
    collisions(new)
    if show:
        for a, b in sorted(new.items()):
            print(a, b)
        return 0
    for p in list(files(".antt", ".rt")):
        t = text(p)
        if p.startswith("crates/lowering/proofs/"):
            t = re.sub(r"(?<![\w'-])either_order(?![\w'-])", "either_order_lem", t)
        n = source(t, new) if p.endswith(".rt") else respelled(theorem(t) if walked(p) else t, new, "--")
        if n != t:
            with open(p, "w", encoding="utf-8") as f:
                f.write(n)
    with open(os.path.join("tools", "respelled.tsv"), "w", encoding="utf-8") as f:
        f.writelines(f"{a}\t{b}\n" for a, b in sorted(new.items()))
    print(len(new), "names respelled")
    return 0


if __name__ == "__main__":
    raise SystemExit(main(sys.argv[1:]))
