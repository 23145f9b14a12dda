#!/usr/bin/env python3
"""Replays vectors against a second implementation of document 01.

    check.py FILE...     vectors; fails on any disagreement
    check.py --frames    document 01's frame program on standard input

Written from document 01 and the requests that change it (docs/REQUESTS.md), not
from the Rust, with all refusals. So
agreement shows two things: the vectors lie in the domain (nothing in them is
refused), and document 01 and the Rust say the same there. It prints one line a
file, then how often each rule was met.
"""

import sys
from collections import Counter

sys.setrecursionlimit(20_000)

P = 2**64 - 2**32 + 1
MINUS_ONE = P - 1
PLACES, ROOTS = 512, 64
INDEX_BOUND, DEGREE_BOUND, PATH_BOUND = 65_535, 2_147_483_647, 4_294_967_295
(NOT_CIRCUIT, BAD_ID, BAD_ROW, BAD_INDEX, BAD_WORD, FULL, EMPTY, TARGET, COLUMNS,
 LOOSE, DEGREE, PATHS, NO_ROOM, REPEAT, TABLE, FRAME) = range(1, 17)
BASE, EXTENSION, CHALLENGE, ADD, MULTIPLY, MAIN, AUX, NEXT_MAIN, NEXT_AUX = range(9)

met = Counter()


class Refused(Exception):
    """Its argument is document 01's number."""


# ---- the two fields


def x_add(a, b):
    return tuple((i + j) % P for i, j in zip(a, b))


def x_multiply(a, b):
    c = [0] * 5
    for i in range(3):
        for j in range(3):
            c[i + j] += a[i] * b[j]
    # X^4 = X^2 - X, X^3 = X - 1
    return ((c[0] - c[3]) % P, (c[1] + c[3] - c[4]) % P, (c[2] + c[4]) % P)


def lift(b):
    return (b, 0, 0)


# ---- the circuit


class Circuit:
    """Expressions are tuples: a kind, then its words, index or operand ids."""

    def __init__(self, dual):
        self.dual = dual
        self.expressions = []
        self.registered = []
        self.shapes = {}  # structure to number, operands by their own numbers
        self.shape_of = {}

    def operands(self, i):
        e = self.expressions[i]
        return e[1:] if e[0] in (ADD, MULTIPLY) else ()

    def shape(self, i):
        """Equal numbers exactly for equal structure."""
        if i not in self.shape_of:
            e = self.expressions[i]
            if e[0] in (ADD, MULTIPLY):
                e = (e[0], self.shape(e[1]), self.shape(e[2]))
            self.shape_of[i] = self.shapes.setdefault(e, len(self.shapes))
        return self.shape_of[i]

    def order(self, roots):
        """The ids below the roots, each after its operands."""
        done, out = set(), []

        def visit(i, above):
            assert i not in above, "cycle"
            if i not in done:
                for o in self.operands(i):
                    visit(o, above | {i})
                done.add(i)
                out.append(i)

        for root in roots:
            visit(root, frozenset())
        return out

    # -- building

    def constant(self, i):
        """The value of a constant, or None."""
        e = self.expressions[i]
        return lift(e[1]) if e[0] == BASE else e[1:] if e[0] == EXTENSION else None

    def is_zero(self, i):
        return self.constant(i) == lift(0)

    def is_one(self, i):
        return self.constant(i) == lift(1)

    def is_minus_one(self, i):
        return self.constant(i) == lift(MINUS_ONE)

    def find(self, structure):
        """The registered node of this structure, operands given by their shapes."""
        number = self.shapes.setdefault(structure, len(self.shapes))
        same = [i for i in range(len(self.expressions)) if self.shape(i) == number]
        found = [i for i in same if self.registered[i]]
        assert len(found) <= 1, "a grown circuit has no two equal registered nodes"
        if same and not found:
            met["not found though an equal loose node is there"] += 1
        return found[0] if found else None

    def make(self, expression):
        if len(self.expressions) == PLACES:
            raise Refused(FULL)
        self.expressions.append(expression)
        self.registered.append(True)
        return len(self.expressions) - 1

    def forget(self, used):
        """Take back what a refused call made."""
        del self.expressions[used:], self.registered[used:]
        self.shape_of = {i: s for i, s in self.shape_of.items() if i < used}

    def leaf(self, expression):
        if expression[0] == EXTENSION and expression[2:] == (0, 0):
            expression = (BASE, expression[1])
        same = self.find(expression)
        return self.make(expression) if same is None else same

    def operation(self, op, left, right):
        simplified = self.simplify(op, left, right)
        if simplified is not None:
            return simplified
        l, r = self.constant(left), self.constant(right)
        if l is not None and r is not None:
            met["two constants fold"] += 1
            value = (x_add if op == ADD else x_multiply)(l, r)
            both_base = l[1:] == r[1:] == (0, 0)
            met["extension constants fold to a base constant"] += not both_base and value[1:] == (0, 0)
            return self.leaf((EXTENSION, *value))
        if not (self.registered[left] and self.registered[right]):
            met["operation on a loose node"] += 1
        a, b = self.shape(left), self.shape(right)
        same = self.find((op, b, a))
        if same is not None:
            met["found as (op, right, left)"] += 1
            return same
        same = self.find((op, a, b))
        if same is not None:
            met["found as (op, left, right)"] += 1
            return same
        return self.make((op, left, right))

    def simplify(self, op, left, right):
        if op == ADD:
            rules = [("right zero", self.is_zero, right, left), ("left zero", self.is_zero, left, right)]
        else:
            rules = [
                ("right one", self.is_one, right, left),
                ("left one", self.is_one, left, right),
                ("right zero", self.is_zero, right, right),
                ("left zero", self.is_zero, left, left),
            ]
        for name, test, tested, answer in rules:
            if test(tested):
                met[f"{'add' if op == ADD else 'multiply'}: {name}"] += 1
                return answer
        return None

    def negate(self, i):
        return self.operation(MULTIPLY, self.leaf((BASE, MINUS_ONE)), i)

    def subtract(self, left, right):
        return self.operation(ADD, left, self.negate(right))

    def sum(self, ids):
        if not ids:
            raise Refused(EMPTY)
        total = ids[0]
        for i in ids[1:]:
            total = self.operation(ADD, total, i)
        return total

    # -- readings: each from the operands' own answers, over an order

    def degrees(self, order):
        out = {}
        for i in order:
            e = self.expressions[i]
            if e[0] == ADD:
                out[i] = max(out[e[1]], out[e[2]])
            elif e[0] == MULTIPLY:
                l, r = out[e[1]], out[e[2]]
                out[i] = -1 if -1 in (l, r) else l + r
            else:
                out[i] = 1 if e[0] >= MAIN else -1 if self.is_zero(i) else 0
        return out

    def base_tests(self, order):
        out = {}
        for i in order:
            operands = self.operands(i)
            kind = self.expressions[i][0]
            out[i] = all(out[o] for o in operands) if operands else kind in (BASE, MAIN, NEXT_MAIN)
        return out

    def values(self, order, cells):
        out = {}
        for i in order:
            e = self.expressions[i]
            if e[0] in (ADD, MULTIPLY):
                out[i] = (x_add if e[0] == ADD else x_multiply)(out[e[1]], out[e[2]])
            else:
                constant = self.constant(i)
                out[i] = cells[e] if constant is None else constant
        return out

    def walk(self, i):
        operands = self.operands(i)
        if not operands:
            return [i]
        return self.walk(operands[0]) + [i] + self.walk(operands[1])

    def walk_sums(self, order):
        """Length, checksum factor and checksum of each walk, never walked."""
        out = {}
        for i in order:
            one = (1, FACTOR, i + 1)
            operands = self.operands(i)
            out[i] = join(join(out[operands[0]], one), out[operands[1]]) if operands else one
        return out

    def paths(self, starts, order):
        """The paths from the starts to each node of an order that holds them."""
        out = Counter(starts)
        for i in reversed(order):
            for o in self.operands(i):
                out[o] += out[i]
        return out

    def repeated(self, roots):
        return len(set(roots)) < len(roots) or any(
            a != b and a in self.order([b]) for a in roots for b in roots
        )

    # -- lowering

    def lower(self, roots, target, counts):
        """The two lists; roots are replaced in place."""
        used = len(self.expressions)
        if target < 2:
            raise Refused(TARGET)
        if any(r >= used for r in roots):
            raise Refused(BAD_ID)
        order = self.order(roots)
        degrees = self.degrees(order)
        if any(d > DEGREE_BOUND for d in degrees.values()):
            raise Refused(DEGREE)
        if not roots or max(degrees[r] for r in roots) <= target:
            met["lowering with nothing to do"] += 1
            if any(not self.registered[i] for i in order):
                met["the same, with a loose node below a root"] += 1
            return [], []
        if any(not self.registered[i] for i in order):
            raise Refused(LOOSE)
        m = sum(d > 1 for d in degrees.values())
        for e in self.expressions:
            # Request 4: an input of either row.
            if e[0] >= MAIN and e[1] >= counts[(e[0] - MAIN) % 2]:
                raise Refused(COLUMNS)
        if any(count + m > 65_536 for count in counts):
            raise Refused(COLUMNS)
        occurrences = self.occurrences(order, degrees, target)
        if any(degrees[i] > 1 and occurrences[i] > PATH_BOUND for i in order):
            raise Refused(PATHS)
        if PLACES - used < 3 * m:
            raise Refused(FULL)
        if m > PLACES:
            raise Refused(NO_ROOM)
        met["lowering with a root twice"] += len(set(roots)) < len(roots)
        met["lowering with a root below another"] += self.repeated(list(set(roots)))
        lists = ([], [])
        while max(degrees[r] for r in roots) > target:
            self.substitute(roots, degrees, occurrences, target, counts, lists)
            order = self.order(roots)
            degrees = self.degrees(order)
            occurrences = self.occurrences(order, degrees, target)
        assert len(lists[0]) + len(lists[1]) < m
        met["substitutions"] += len(lists[0]) + len(lists[1])
        return lists

    def occurrences(self, order, degrees, target):
        total = Counter()
        for high in order:
            if degrees[high] > target:
                total.update(self.paths([high], self.order([high])))
        return total

    def substitute(self, roots, degrees, occurrences, target, counts, lists):
        candidates = [i for i, d in degrees.items() if 2 <= d <= target]
        best = max((occurrences[i], degrees[i]) for i in candidates)
        tied = [i for i in candidates if (occurrences[i], degrees[i]) == best]
        met["choice by least id"] += len(tied) > 1
        chosen = min(tied)
        table = 0 if self.base_tests(self.order([chosen]))[chosen] else 1
        before = len(self.expressions)
        new = self.leaf((MAIN + table, counts[table] + len(lists[table])))
        assert new == before, "the new column is a new input"
        self.registered[chosen] = False
        for i, e in enumerate(self.expressions):
            if self.registered[i] and e[0] in (ADD, MULTIPLY):
                self.expressions[i] = (e[0], *(new if o == chosen else o for o in e[1:]))
        self.shape_of = {}
        met["root redirected"] += chosen in roots
        roots[:] = [new if r == chosen else r for r in roots]
        constraint = self.subtract(new, chosen)
        met["constraint is an old node"] += constraint < before
        met["substitution for a main column" if table == 0 else "substitution for an auxiliary column"] += 1
        lists[table].append(constraint)


FACTOR = 1_000_003


def join(a, b):
    return (a[0] + b[0], a[1] * b[1] % P, (a[2] * b[1] + b[2]) % P)


# ---- the frame program


class Program:
    def __init__(self):
        self.circuit = None
        self.roots = []

    def answer(self, line):
        used = len(self.circuit.expressions) if self.circuit else 0
        try:
            return "00" + self.accepted(line)
        except Refused as refused:
            if self.circuit:
                self.circuit.forget(used)
            return f"{refused.args[0]:02x}"

    def accepted(self, line):
        if not line or len(line) % 2 or any(c not in "0123456789abcdef" for c in line):
            raise Refused(FRAME)
        frame = bytes.fromhex(line)
        lengths = [2, 4, 3, 9, 25, 5, 5, 5, 3, 3, 7]
        opcode = frame[0]
        if opcode > 10 or len(frame) != lengths[opcode]:
            raise Refused(FRAME)
        if (opcode == 0) != (self.circuit is None):
            raise Refused(FRAME)
        if opcode == 0:
            if frame[1] not in (1, 2):
                raise Refused(FRAME)
            self.circuit = Circuit(frame[1] == 2)
            return ""
        if opcode == 9:
            (root,) = self.ids(frame)
            if len(self.roots) == ROOTS:
                raise Refused(NO_ROOM)
            self.roots.append(root)
            return ""
        if opcode == 10:
            target, *counts = halves(frame)
            main, aux = self.circuit.lower(self.roots, target, counts)
            return "".join(f"{n:04x}" for n in (len(main), len(aux), *main, *aux))
        return f"{self.build(opcode, frame):04x}"

    def build(self, opcode, frame):
        circuit = self.circuit
        if opcode == 1:
            if frame[1] > 3:
                raise Refused(FRAME)
            if frame[1] > 1 and not circuit.dual:
                raise Refused(BAD_ROW)
            return circuit.leaf((MAIN + frame[1], int.from_bytes(frame[2:], "big")))
        if opcode == 2:
            return circuit.leaf((CHALLENGE, *halves(frame)))
        if opcode in (3, 4):
            words = tuple(int.from_bytes(frame[i : i + 8], "big") for i in range(1, len(frame), 8))
            if any(w >= P for w in words):
                raise Refused(BAD_WORD)
            met["extension constant given that unlifts"] += opcode == 4 and words[1:] == (0, 0)
            return circuit.leaf((BASE if opcode == 3 else EXTENSION, *words))
        ids = self.ids(frame)
        if opcode == 5:
            return circuit.operation(ADD, *ids)
        if opcode == 6:
            return circuit.operation(MULTIPLY, *ids)
        return circuit.subtract(*ids) if opcode == 7 else circuit.negate(*ids)

    def ids(self, frame):
        ids = halves(frame)
        if any(i >= len(self.circuit.expressions) for i in ids):
            raise Refused(BAD_ID)
        return ids


def halves(frame):
    return [int.from_bytes(frame[i : i + 2], "big") for i in range(1, len(frame), 2)]


# ---- the vectors


def words(values):
    return "".join(f"{w:016x}" for w in values)


def dump(program, cells):
    """The records of a dump, all but the cells."""
    c, roots = program.circuit, program.roots
    used = len(c.expressions)
    order = c.order(range(used))
    valued = all(e in cells for e in c.expressions if e[0] == CHALLENGE or e[0] >= MAIN)
    degrees, bases = c.degrees(order), c.base_tests(order)
    values = c.values(order, cells) if valued else {}
    classes = {}
    for i in range(used):
        classes.setdefault(c.shape(i), i)
    yield f"d{used:04x}{sum(c.registered):04x}{len(roots):02x}{'v' if valued else '-'}"
    for i, e in enumerate(c.expressions):
        text = words(e[1:]) if e[0] in (BASE, EXTENSION) else "".join(f"{n:04x}" for n in e[1:])
        tests = (bases[i], c.is_zero(i), c.is_one(i), c.is_minus_one(i))
        value = values[i][: 1 if bases[i] else 3] if valued else ()
        assert not valued or not bases[i] or values[i][1:] == (0, 0)
        met["loose node dumped"] += not c.registered[i]
        met["node dumped that is equal to an earlier one"] += classes[c.shape(i)] != i
        yield (
            f"n{i:04x}{'R' if c.registered[i] else 'L'}{e[0]:02x}{text}{degrees[i] + 1:08x}"
            f"{''.join(str(int(t)) for t in tests)}{classes[c.shape(i)]:04x}{words(value)}"
        )
    yield "r" + "".join(f"{r:04x}" for r in roots)
    yield f"g{max((degrees[r] for r in roots), default=-1) + 1:08x}"
    below = c.order(roots)
    yield f"v{len({c.shape(i) for i in below}):04x}"
    sums = c.walk_sums(order)
    for k, r in enumerate(roots):
        length, _, total = sums[r]
        if length <= 256:
            walk = c.walk(r)
            assert len(walk) == length
            yield f"w{k:02x}{length:04x}" + "".join(f"{i:04x}" for i in walk)
        else:
            met["longest walk"] = max(met["longest walk"], length)
            yield f"x{k:02x}{length:08x}{total:016x}"
    if c.repeated(roots):
        met["dump with REPEAT"] += 1
        yield f"k{REPEAT:02x}"
    else:
        yield "k00"
        counts = c.paths(roots, below)
        assert all(n <= PATH_BOUND for n in counts.values())
        pairs = sorted((i, counts[i]) for i in below)
        for start in range(0, len(pairs), 256):
            yield "q" + "".join(f"{i:04x}{n:08x}" for i, n in pairs[start : start + 256])
        for k, r in enumerate(roots):
            distinct = sorted({counts[i] for i in c.order([r])})
            yield f"u{k:02x}{len(distinct):04x}" + "".join(f"{n:08x}" for n in distinct)
    yield "e"


def cell(line):
    """A leaf and its value, from a record `t`."""
    kind, index = int(line[1:3], 16), int(line[3:7], 16)
    value = [int(line[i : i + 16], 16) for i in range(7, len(line), 16)]
    assert len(value) == (1 if kind in (MAIN, NEXT_MAIN) else 3)
    return (kind, index), tuple(value) if len(value) == 3 else lift(value[0])


class Disagreement(Exception):
    pass


def expect(where, theirs, ours):
    if theirs != ours:
        raise Disagreement(f"{where}\n  vector: {theirs}\n  check:  {ours}")


def check(path):
    """Replay a file; its totals."""
    program, cells, totals, asked = None, {}, [0] * 7, None
    with open(path, "rb") as file:
        data = file.read()
    assert data.endswith(b"\n") and data.isascii() and b"\r" not in data
    lines = iter(enumerate(data.decode("ascii").split("\n")[:-1], 1))
    ended = False
    for number, line in lines:
        where = f"{path}:{number}"
        assert not ended and 1 <= len(line) <= 4095, where
        record, rest = line[0], line[1:]
        if record == "c":
            program, cells = Program(), {}
            totals[0] += 1
        elif record == ">":
            asked = program.answer(rest)
            assert asked.startswith("00"), f"{where}: outside the domain, refused {asked}"
            totals[1] += 1
            if rest.startswith("0a"):
                totals[3] += 1
                totals[4] += int(asked[2:6], 16) + int(asked[6:10], 16)
        elif record == "s":
            ids = [int(rest[i : i + 4], 16) for i in range(2, len(rest), 4)]
            assert len(ids) == int(rest[:2], 16), where
            assert all(i < len(program.circuit.expressions) for i in ids), where
            asked = f"00{program.circuit.sum(ids):04x}"
            totals[2] += 1
        elif record == "<":
            expect(where, rest, asked)
        elif record == "t":
            leaf, value = cell(line)
            cells[leaf] = value
        elif record == "d":
            totals[5] += 1
            totals[6] += len(program.circuit.expressions)
            for mine in dump(program, cells):
                expect(where, line, mine)
                if mine != "e":
                    number, line = next(lines)
                    where = f"{path}:{number}"
        elif record == ".":
            expect(where, rest, "".join(f"{n:08x}" for n in totals))
            ended = True
        else:
            assert record == "#", where
    assert ended, f"{path}: no totals"
    return totals


NAMES = ["circuits", "frames", "sums", "lowerings", "substitutions", "dumps", "nodes dumped"]


def main(paths):
    failures, sums = 0, [0] * 7
    for path in paths:
        try:
            totals = check(path)
        except (Disagreement, AssertionError) as problem:
            failures += 1
            print(f"DISAGREEMENT {problem}")
            continue
        sums = [a + b for a, b in zip(sums, totals)]
        name = path.rsplit("/", 1)[-1]
        print(f"{name}: " + ", ".join(f"{n} {t}" for n, t in zip(NAMES, totals)))
    print("all: " + ", ".join(f"{n} {t}" for n, t in zip(NAMES, sums)))
    for name, count in sorted(met.items()):
        print(f"  {name}: {count}")
    print(f"{failures} of {len(paths)} files disagree")
    return 1 if failures or not paths else 0


def frames():
    program = Program()
    lines = sys.stdin.buffer.read().decode("latin-1").split("\n")
    # What follows the last line feed is a line only if it isn't empty.
    for line in lines if lines[-1] else lines[:-1]:
        print(program.answer(line))


if __name__ == "__main__":
    if sys.argv[1:] == ["--frames"]:
        frames()
    else:
        sys.exit(main(sys.argv[1:]))
