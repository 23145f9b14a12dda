#!/usr/bin/env python3
"""Fresh random circuits and rows through the project's `fill`, and through a second implementation of it.

    oracle/rows.py FIRST COUNT [--themes T,T..] [--fill PROGRAM]

COUNT circuits of each theme, numbered from FIRST, as differential.py has them.
After each accepted lower frame, and at the end, come challenges and rows, some
of them damaged. What is answered to the rows is worked out here from docs/FILL.md
alone: a new column's value is what makes its constraint zero, the columns one
after the other; check.py answers the frames. The first line that differs is
printed; the exit status is then 1.

It needs the built oracle (`oracle/run --build`) and the built program
(`rt run </dev/null` in crates/fill).
"""
import argparse
import random
import subprocess
import sys
from collections import Counter

from check import BAD_WORD, CHALLENGE, FRAME, MAIN, NO_ROOM, P, TABLE, Program, Refused, words
from differential import CRATES, generated

MOST = 1024


def number(text):
    return int(text, 16)


class Desk(Program):
    """The frame program, with challenges and rows."""

    def __init__(self):
        super().__init__()
        self.challenges = []
        self.lists = None

    def accepted(self, line):
        if self.circuit is None or line[:2] not in ("0b", "0c"):
            answer = super().accepted(line)
            if line[:2] == "0a":
                numbers = [number(answer[i : i + 4]) for i in range(0, len(answer), 4)]
                ids = numbers[2:]
                self.lists = ids[: numbers[0]], ids[numbers[0] :]
                self.counts = number(line[6:10]), number(line[10:14])
            return answer
        return self.give(line) if line[:2] == "0b" else self.row(line)

    def cells(self, line, triples):
        """The words of a line, one for a main cell and three for any other."""
        if any(c not in "0123456789abcdef" for c in line) or len(line) != 2 + 16 * sum(triples):
            raise Refused(FRAME)
        given = [number(line[i : i + 16]) for i in range(2, len(line), 16)]
        return [tuple(given.pop(0) for _ in range(n)) for n in triples]

    def give(self, line):
        many = len(line) // 48
        if many > MOST:
            raise Refused(FRAME)
        given = self.cells(line, [3] * many)
        if any(w >= P for cell in given for w in cell):
            raise Refused(BAD_WORD)
        self.challenges = given
        return ""

    def row(self, line):
        if self.lists is None:
            raise Refused(FRAME)
        if any(count + len(new) > MOST for count, new in zip(self.counts, self.lists)):
            raise Refused(NO_ROOM)
        kinds = [(MAIN + 2 * row + table, c) for row in range(1 + self.circuit.dual) for table in (0, 1) for c in range(self.counts[table])]
        given = self.cells(line, [1 if (kind - MAIN) % 2 == 0 else 3 for kind, _ in kinds])
        listed = [i for new in self.lists for i in new]
        order = self.circuit.order(listed)
        if any(e[0] == CHALLENGE and e[1] >= len(self.challenges) for e in (self.circuit.expressions[i] for i in order)):
            raise Refused(TABLE)
        if any(w >= P for cell in given for w in cell):
            raise Refused(BAD_WORD)
        values = {place: (cell + (0, 0))[:3] for place, cell in zip(kinds, given)}
        values |= {(CHALLENGE, k): value for k, value in enumerate(self.challenges)}
        return self.filled(values)

    def filled(self, values):
        """Each new value: minus its constraint's value where its own cell is zero."""
        answer = ""
        for table, new in enumerate(self.lists):
            for k, constraint in enumerate(new):
                order, place = self.circuit.order([constraint]), (MAIN + table, self.counts[table] + k)
                values[place] = (0, 0, 0)
                rest = self.circuit.values(order, values)[constraint]
                values[place] = tuple(-w % P for w in rest)
                assert self.circuit.values(order, values)[constraint] == (0, 0, 0), "not linear in its column"
                assert table == 1 or rest[1:] == (0, 0), "a main column's value is a word"
                answer += words(values[place][: 1 if table == 0 else 3])
        return answer


def some_word(rng):
    return rng.choice([rng.randrange(P), rng.randrange(P), 0, 1, P - 1])


def damaged(rng, line):
    """One of: a word at p, short, long, odd, upper case, no digit."""
    at = 2 + 16 * rng.randrange(max(1, len(line) // 16))
    return rng.choice([
        line[:at] + f"{P + rng.randrange(3):016x}" + line[at + 16 :], line[:-2], line + "00", line + "0", line.upper(), line[:-1] + "g", line[:2] + line[4:],
    ])


def rows(rng, desk):
    """Challenges, and rows for the counts there are; a fifth of them damaged."""
    lines = ["0b" + "".join(words([some_word(rng)]) for _ in range(3 * rng.choice([0, 1, 2, 6, 6])))]
    if desk.lists is None:
        return [*lines, "0c"]
    width = (1 + desk.circuit.dual) * (desk.counts[0] + 3 * desk.counts[1])
    lines += ["0c" + "".join(words([some_word(rng)]) for _ in range(width)) for _ in range(3)]
    return [damaged(rng, line) if rng.random() < 0.2 else line for line in lines]


def compare(program, theme, number_, calls, met):
    rng, desk, lines, wanted = random.Random(f"{theme} {number_}"), Desk(), [], []

    def say(line):
        lines.append(line)
        wanted.append(desk.answer(line))
        if line[:2] in ("0b", "0c"):
            met[line[:2], "00" if wanted[-1][:2] == "00" else wanted[-1]] += 1
            met["new cells"] += 16 < len(wanted[-1]) and (len(wanted[-1]) - 2) // 16

    for frame, _ in calls:
        say(frame)
        if frame[:2] in ("00", "0a"):
            for line in rows(rng, desk):
                say(line)
    for line in rows(rng, desk):
        say(line)
    given = "".join(line + "\n" for line in lines).encode()
    ours = subprocess.run([program], input=given, capture_output=True, check=True).stdout.decode().split("\n")
    for line, mine, theirs in zip(lines, ours, wanted):
        if mine != theirs:
            print(f"{theme} {number_}: {line}\n  fill   {mine}\n  wanted {theirs}")
            sys.exit(1)
    assert ours[len(lines) :] == [""], "as many answers as lines"
    return len(lines)


def main():
    parser = argparse.ArgumentParser()
    parser.add_argument("first", type=int)
    parser.add_argument("count", type=int)
    parser.add_argument("--themes", default="building,single,dual,again,large")
    parser.add_argument("--fill", default=str(CRATES / "fill/out/fill"))
    options = parser.parse_args()
    met, total = Counter(), 0
    for theme in options.themes.split(","):
        circuits = generated(theme, options.first, options.count)
        lines = sum(compare(options.fill, theme, at, calls, met) for at, calls in circuits)
        total += len(circuits)
        print(f"{theme}: {len(circuits)} circuits, {lines} lines, no difference")
    cells = met.pop("new cells")
    print(f"all: {total} circuits, {cells} words of new cells; " + ", ".join(f"{o} answered {a}: {n}" for (o, a), n in sorted(met.items())))


if __name__ == "__main__":
    main()
