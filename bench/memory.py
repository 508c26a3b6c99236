#!/usr/bin/env python3
"""The peak memory of convert and check over a small and a large file, which should be the same. It ends with status 1
where a run takes more than the most megabytes, or where the large file takes more of it than the small one."""

import argparse
import os
import tempfile

from molecules import write_records
from program import CHECK, CONVERT, Run, build, end, line_count

MEGABYTE = 1_000_000
# What two runs over one file may differ by.
SLACK = 2


def repeat_records(path, block, size):
    """Writes a block of records again and again, until the file has the size."""
    with open(path, "wb") as file:
        for _ in range(-(-size // len(block))):
            file.write(block)


def peaks(folder, block, size):
    """The peaks of a conversion and of its check, in megabytes, and how long they took."""
    given, out, report, verdicts = (os.path.join(folder, name) for name in ["given", "out", "report", "verdicts"])
    repeat_records(given, block, size)
    convert = Run(CONVERT, given=given, out=out, error=report)
    check = Run([*CHECK, given, out, report], out=verdicts)
    count = line_count(report)
    if convert.status != 0 or check.status != 0 or line_count(verdicts) != count:
        end(f"convert ended with status {convert.status}, check with {check.status}")
    for name, run in [("convert", convert), ("check", check)]:
        print(f"{name} of {size // MEGABYTE} MB, {count} records: {run.megabytes:.1f} MB in {run.seconds:.1f} s")
    return convert.megabytes, check.megabytes


def main():
    words = argparse.ArgumentParser(description=__doc__)
    words.add_argument("--small", type=int, default=1, help="megabytes of the small file")
    words.add_argument("--large", type=int, default=1000, help="megabytes of the large file")
    words.add_argument("--most", type=float, default=20, help="the most megabytes that a run may take")
    given = words.parse_args()
    build()
    with tempfile.TemporaryDirectory() as folder:
        block = os.path.join(folder, "block")
        write_records(block, 20_000)
        with open(block, "rb") as file:
            records = file.read()[:MEGABYTE]
        records = records[: records.rindex(b"\n") + 1]
        small, large = (peaks(folder, records, size * MEGABYTE) for size in [given.small, given.large])
    for name, few, many in zip(["convert", "check"], small, large):
        if many > given.most or many > few + SLACK:
            end(f"{name} took {many:.1f} MB where it took {few:.1f} MB of the small file")


if __name__ == "__main__":
    main()
