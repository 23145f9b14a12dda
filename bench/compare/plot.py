#!/usr/bin/env python3
"""Draws how cost grows, from what `compare measure` printed: plot.py MEASURED > growth.svg

Three panels, building, evaluation and lowering to 4, each with both axes logarithmic; no library is needed.
"""
import math
import sys

COLOURS = {"products": "#1f6feb", "selectors": "#d4760a"}
PANELS = [
    ("build", "building a circuit", ["Rust", "public calls", "inner calls"]),
    ("evaluate", "evaluating one root over it", ["Rust", "public call"]),
    ("lower to 4", "lowering it to degree 4", ["Rust", "public call"]),
]
STYLES = {"Rust": "6 4", "public calls": "", "public call": "", "inner calls": "2 3"}
WIDTH, HEIGHT, LEFT, TOP, GAP = 300, 320, 60, 40, 70


def read(path):
    """(what, shape) -> list of (nodes, [microseconds])"""
    found = {}
    for line in open(path):
        what, circuit, nodes, _, *times = line.rstrip("\n").split("\t")
        found.setdefault((what, circuit.split()[0]), []).append((int(nodes), [float(t) for t in times]))
    return found


def decades(low, high):
    return [10**k for k in range(math.floor(math.log10(low)), math.ceil(math.log10(high)) + 1)]


def text(x, y, words, anchor="middle", size=12, colour="#333"):
    return f'<text x="{x:.1f}" y="{y:.1f}" text-anchor="{anchor}" font-size="{size}" fill="{colour}">{words}</text>'


def micros(value):
    for unit, of in (("s", 1e6), ("ms", 1e3), ("us", 1)):
        if value >= of:
            return f"{value / of:g} {unit}"
    return f"{value * 1e3:g} ns"


def panel(at, what, title, columns, found):
    series = [(shape, found[what, shape]) for shape in COLOURS if (what, shape) in found]
    times = [t for _, rows in series for _, row in rows for t in row]
    marks = decades(min(times), max(times))
    low, high = math.log10(marks[0]), math.log10(marks[-1])
    left, right = math.log10(200), math.log10(5000)

    def x(nodes):
        return at + (math.log10(nodes) - left) / (right - left) * WIDTH

    def y(time):
        return TOP + HEIGHT - (math.log10(time) - low) / (high - low) * HEIGHT

    out = [text(at + WIDTH / 2, TOP - 14, title, size=14)]
    for mark in marks:
        out.append(f'<line x1="{at}" y1="{y(mark):.1f}" x2="{at + WIDTH}" y2="{y(mark):.1f}" stroke="#ddd"/>')
        out.append(text(at - 6, y(mark) + 4, micros(mark), "end", 11))
    for nodes in (250, 500, 1000, 2000, 4000):
        out.append(f'<line x1="{x(nodes):.1f}" y1="{TOP}" x2="{x(nodes):.1f}" y2="{TOP + HEIGHT}" stroke="#eee"/>')
        out.append(text(x(nodes), TOP + HEIGHT + 16, f"{nodes:,}", size=11))
    out.append(text(at + WIDTH / 2, TOP + HEIGHT + 34, "nodes"))
    for shape, rows in series:
        for k, column in enumerate(columns):
            points = " ".join(f"{x(nodes):.1f},{y(row[k]):.1f}" for nodes, row in rows)
            dash = f' stroke-dasharray="{STYLES[column]}"' if STYLES[column] else ""
            out.append(f'<polyline points="{points}" fill="none" stroke="{COLOURS[shape]}" stroke-width="2"{dash}/>')
            for point in points.split():
                px, py = point.split(",")
                out.append(f'<circle cx="{px}" cy="{py}" r="2.5" fill="{COLOURS[shape]}"/>')
    return out


def main():
    found = read(sys.argv[1])
    total = LEFT + len(PANELS) * (WIDTH + GAP)
    out = [f'<svg xmlns="http://www.w3.org/2000/svg" width="{total}" height="{TOP + HEIGHT + 90}" font-family="sans-serif">']
    out.append(f'<rect width="{total}" height="{TOP + HEIGHT + 90}" fill="white"/>')
    for k, (what, title, columns) in enumerate(PANELS):
        out += panel(LEFT + k * (WIDTH + GAP), what, title, columns, found)
    at, line = LEFT, TOP + HEIGHT + 64
    for shape, colour in COLOURS.items():
        out.append(f'<line x1="{at}" y1="{line}" x2="{at + 30}" y2="{line}" stroke="{colour}" stroke-width="2"/>')
        out.append(text(at + 36, line + 4, shape, "start"))
        at += 120
    for name, dash in (("Rust", "6 4"), ("public calls", ""), ("inner calls", "2 3")):
        dashes = f' stroke-dasharray="{dash}"' if dash else ""
        out.append(f'<line x1="{at}" y1="{line}" x2="{at + 30}" y2="{line}" stroke="#333" stroke-width="2"{dashes}/>')
        out.append(text(at + 36, line + 4, name, "start"))
        at += 130
    out.append("</svg>")
    print("\n".join(out))


main()
