#!/usr/bin/env python3
"""The time of one record against its number of atoms, beside a loop that copies the bytes of the record."""

import argparse
import math
import os
import tempfile
import time

from molecules import chain, comb, ladder
from program import CONVERT, best, build, end

SIZES = [10, 20, 50, 100, 200, 500, 900, 999]
# A molecule has 999 bonds at most, so that one of 999 atoms has no room for 99 rings.
SHAPES = {"chain": (chain, SIZES), "comb of branches": (comb, SIZES), "ladder of 99 rings": (ladder, SIZES[:-1])}
# The shorter records are lost in the start of the program.
LEAST_ATOMS = 100
# A record that takes less than this above the start of the program can't be told from the start.
LEAST = 2e-6


def copied(text):
    """The seconds of a loop that copies the bytes one by one."""
    start = time.perf_counter()
    copy = bytearray()
    for byte in text:
        copy.append(byte)
    return time.perf_counter() - start


def measured(folder, text, runs, start):
    """The least seconds of a record above the start of the program, and of the loop."""
    path = os.path.join(folder, "record.smi")
    with open(path, "wb") as file:
        file.write(text)
    run = best(runs, CONVERT, given=path)
    if run.status != 0:
        end(f"a record of {len(text)} bytes ended with status {run.status}")
    return max(run.seconds - start, LEAST), min(copied(text) for _ in range(runs))


def growth(times):
    """The power of the size by which the time grows, by least squares over the logarithms."""
    xs = [math.log(size) for size in times]
    ys = [math.log(second) for second in times.values()]
    x_mean, y_mean = sum(xs) / len(xs), sum(ys) / len(ys)
    products = sum((x - x_mean) * (y - y_mean) for x, y in zip(xs, ys))
    return products / sum((x - x_mean) ** 2 for x in xs)


def main():
    words = argparse.ArgumentParser(description=__doc__)
    words.add_argument("--runs", type=int, default=100, help="how many runs, of which the least time counts")
    runs = words.parse_args().runs
    build()
    with tempfile.TemporaryDirectory() as folder:
        start = best(4 * runs, CONVERT).seconds
        print(f"start of the program (taken off below): {start * 1e6:.0f} microseconds")
        for name, (shape, sizes) in SHAPES.items():
            print(f"\n{name}\n{'atoms':>6} {'bytes':>6} {'record, us':>11} {'copy, us':>9} {'ratio':>6}")
            times = {}
            for size in sizes:
                text = shape(size).encode()
                second, loop = measured(folder, text, runs, start)
                if size >= LEAST_ATOMS:
                    times[size] = second
                print(f"{size:6} {len(text):6} {second * 1e6:11.0f} {loop * 1e6:9.1f} {second / loop:6.1f}")
            print(f"from {LEAST_ATOMS} atoms on the time grows as the atoms to the power {growth(times):.2f}")


if __name__ == "__main__":
    main()
