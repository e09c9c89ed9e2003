#!/usr/bin/env python3
"""Draws what `bench/run series` prints: a row's time by how many columns, and by how many bytes, it has.

    bench/run series | bench/plot.py > docs/bench.svg

Both axes are logarithmic, so that a time that is linear in the number is a straight line of slope 1.
"""
import csv
import math
import sys

WIDTH, HEIGHT, LEFT, TOP = 300, 260, 60, 40
STEP = WIDTH + LEFT + 30
TITLES = {
    "columns": "texts of 8 bytes, by columns",
    "columns-longer": "each text longer in each row, by columns",
    "bytes": "one text, by bytes",
}
LINES = {"port": "#0b6e4f", "original": "#b3541e", "copy": "#7a7a7a"}


def read(rows):
    """The points of each line of each series: (number, nanoseconds)."""
    series = {name: {line: [] for line in LINES} for name in TITLES}
    for row in csv.DictReader(rows, delimiter="\t"):
        for line in LINES:
            series[row["series"]][line].append((float(row["number"]), float(row[line])))
    return series


def powers(low, high, base):
    """The powers of a base from one below the least value to one above the greatest."""
    return [base**k for k in range(math.floor(math.log(low, base) + 1e-9), math.ceil(math.log(high, base) - 1e-9) + 1)]


def panel(index, name, lines):
    """One diagram."""
    numbers = [x for points in lines.values() for x, _ in points]
    times = [max(t, 0.1) for points in lines.values() for _, t in points]
    across, up = powers(min(numbers), max(numbers), 2), powers(min(times), max(times), 10)
    left = LEFT + index * STEP

    def place(x, t):
        def part(v, marks):
            return (math.log(v) - math.log(marks[0])) / (math.log(marks[-1]) - math.log(marks[0]))

        return left + WIDTH * part(x, across), TOP + HEIGHT * (1 - part(max(t, 0.1), up))

    yield f'<text x="{left}" y="{TOP - 14}" font-weight="bold">{TITLES[name]}</text>'
    for t in up:
        _, y = place(across[0], t)
        yield f'<path d="M{left} {y:.1f}h{WIDTH}" stroke="#ddd"/><text x="{left - 6}" y="{y + 4:.1f}" text-anchor="end">{t:,} ns</text>'
    for x in sorted({int(x) for x in numbers}):
        at, _ = place(x, up[0])
        yield f'<text x="{at:.1f}" y="{TOP + HEIGHT + 16}" text-anchor="middle">{x:,}</text>'
    for line, points in lines.items():
        path = " ".join("{:.1f},{:.1f}".format(*place(x, t)) for x, t in points)
        yield f'<polyline points="{path}" fill="none" stroke="{LINES[line]}" stroke-width="2"/>'


def main():
    series = read(sys.stdin)
    print(f'<svg xmlns="http://www.w3.org/2000/svg" width="{STEP * len(TITLES) + 30}" height="{TOP + HEIGHT + 50}" font-family="sans-serif" font-size="11">')
    print('<rect width="100%" height="100%" fill="white"/>')
    for index, (name, lines) in enumerate(series.items()):
        print("\n".join(panel(index, name, lines)))
    for k, (line, colour) in enumerate(LINES.items()):
        print(f'<text x="{LEFT + 90 * k}" y="{TOP + HEIGHT + 38}" fill="{colour}" font-weight="bold">{line}</text>')
    print("</svg>")


if __name__ == "__main__":
    main()
