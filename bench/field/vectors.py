#!/usr/bin/env python3
"""Writes the vectors that the program field_vectors compares with: one record a line, from Python's integers alone.

usage: vectors.py > crates/field_vectors/stdin

A record is one character, then nine words of 16 hexadecimal digits each: x0 x1 x2, y0 y1 y2, r0 r1 r2.
  + - *  in the base field, place by place: r = x + y, x - y, x * y; the sums and differences are the extension's too
  n      in both fields: r = -x; y is not used
  x      in the extension: r = x * y
  t      tests: r0 is 1 if each of x's words is below p, plus 2 if x unlifts, plus 4 if x equals y; r1 is the word that x unlifts
         to, or 0; r2 is x0, which lifting gives back
Words at or above p stand for their remainders.
"""
import hashlib

P = 2**64 - 2**32 + 1
MODULUS = [1, -1, 0, 1]  # 1 - X + X^3, lowest coefficient first
EDGES = [0, 1, 2, 3, 2**31, 2**32 - 1, 2**32, 2**32 + 1, 2**33, 2**48, 2**63 - 1, 2**63, 2**63 + 1,
         P - 2**32, P - 2, P - 1, P, P + 1, P + 2, 2**64 - 2**32, 2**64 - 2, 2**64 - 1]


def words(seed):
    """Words without end: the digests of seed and a counter, so that every machine draws the same."""
    count = 0
    while True:
        digest = hashlib.sha256(b'%s %d' % (seed, count)).digest()
        for at in range(0, 32, 8):
            yield int.from_bytes(digest[at:at + 8], 'big')
        count += 1


def product(x, y):
    """The product of two polynomials, and its remainder by long division."""
    f = [0] * 5
    for i, a in enumerate(x):
        for j, b in enumerate(y):
            f[i + j] += a * b
    while len(f) > 3:
        top = f.pop()
        for place, coefficient in enumerate(MODULUS[:3]):
            f[len(f) - 3 + place] -= top * coefficient
    return [a % P for a in f]


def tests(x, y):
    unlifts = x[1:] == [0, 0]
    flags = int(all(a < P for a in x)) + 2 * int(unlifts) + 4 * int(x == y)
    return [flags, x[0] if unlifts else 0, x[0]]


def answer(op, x, y):
    by_place = {'+': lambda a, b: a + b, '-': lambda a, b: a - b, '*': lambda a, b: a * b, 'n': lambda a, b: -a}
    if op in by_place:
        return [by_place[op](a, b) % P for a, b in zip(x, y)]
    return product(x, y) if op == 'x' else tests(x, y)


def write(op, x, y):
    print(op + ''.join('%016x' % a for a in x + y + answer(op, x, y)))


def examples():
    """Document 01's, each in a place of its own."""
    write('+', [P - 1, 0, 5], [1, 0, 0])
    write('*', [P - 1, 2**32, 0], [P - 1, 2**32, 0])
    write('x', [0, 1, 0], [0, 0, 1])
    write('x', [0, 0, 1], [0, 0, 1])
    write('+', [0, 1, 0], [5, P - 1, 0])
    write('t', [5, 0, 0], [5, 0, 0])


def main():
    examples()
    # Every pair of edges, in the base field and spread over the places of the extension's factors.
    pairs = [(a, b) for a in EDGES for b in EDGES]
    for at in range(0, len(pairs) - 2, 3):
        x, y = [a for a, _ in pairs[at:at + 3]], [b for _, b in pairs[at:at + 3]]
        for op in '+-*x':
            write(op, x, y)
    for at in range(len(EDGES)):
        x = [EDGES[(at + k * k) % len(EDGES)] for k in range(3)]
        write('n', x, x)
        write('t', x, x)
        write('t', x, x[:2] + [x[2] ^ 1])
        write('t', [x[0], 0, at % 2], [x[0], 0, 0])
        write('t', [x[0], at % 3, 0], [x[0], at % 3, 0])
    draw = words(b'field vectors')
    for op, count in ('+', 500), ('-', 500), ('*', 1000), ('n', 100), ('x', 1500), ('t', 50):
        for at in range(count):
            x, y = [next(draw) for _ in range(3)], [next(draw) for _ in range(3)]
            if at % 4 == 3:  # a few edges among them
                x[at // 4 % 3] = EDGES[at // 4 % len(EDGES)]
            write(op, x, y)


main()
