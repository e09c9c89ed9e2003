#!/usr/bin/env python3
"""Puts together what the program printed of the same measurement with its code at several places: the mean of each time.

    bench/table.py times FILE..     a table, with the ratios and, in brackets, the lowest and highest that one place gave
    bench/table.py series FILE..    the lines of `bench series`, parted by tabs, for bench/plot.py
"""
import csv
import math
import sys
from statistics import mean


def read(path):
    with open(path) as file:
        return list(csv.reader(file, delimiter="\t"))


def ratio(port, original):
    """The ratio of the means, and the range of the ratios."""
    if math.isnan(port[0]):
        return " " * 34
    each = [p / o for p, o in zip(port, original)]
    return f"{mean(port):7.0f} {mean(original):9.0f} {mean(port) / mean(original):6.2f} ({min(each):.2f}-{max(each):.2f})"


def times(files):
    print("nanoseconds a row: the mean over where the code lies\n")
    print(f"{'':20}{'':7} |{'fetched to the end':^36}|{'and column 0 read':^36}|{'below a session':^25}")
    pair = f"{'port':>7}  original  ratio {'':11}"
    print(f"{'workload':20}{'rows':>7} | {pair:34} | {pair:34} |  walks   library   copy")
    for lines in list(zip(*files))[1:]:
        name, rows = lines[0][:2]
        fetch, fetch_original, reading, reading_original, walks, library, copy = zip(*([float(t) for t in line[2:]] for line in lines))
        below = f"{mean(walks):6.0f} {mean(library):9.0f} {mean(copy):6.0f}"
        print(f"{name:20}{rows:>7} | {ratio(fetch, fetch_original)} | {ratio(reading, reading_original)} | {below}".rstrip())


def series(files):
    lines = list(zip(*files))
    print("\t".join(lines[0][0]))
    for line in lines[1:]:
        figures = [f"{mean(float(t) for t in column):.1f}" for column in zip(*(part[2:] for part in line))]
        print("\t".join([*line[0][:2], *figures]))


if __name__ == "__main__":
    {"times": times, "series": series}[sys.argv[1]]([read(path) for path in sys.argv[2:]])
