#!/usr/bin/env python3
"""Whether a check of a conversion takes no more time than the conversion. It ends with status 1 where it takes more."""

import argparse
import os
import tempfile

from molecules import write_records
from program import CHECK, CONVERT, Run, build, end, least_in_turn, line_count


def main():
    words = argparse.ArgumentParser(description=__doc__)
    words.add_argument("--records", type=int, default=100_000)
    words.add_argument("--runs", type=int, default=5, help="how many runs, of which the least time counts")
    given = words.parse_args()
    build()
    with tempfile.TemporaryDirectory() as folder:
        path, out, report, verdicts = (
            os.path.join(folder, name) for name in ["records.smi", "out.smi", "report.txt", "verdicts.txt"]
        )
        write_records(path, given.records)
        convert, check = least_in_turn(
            given.runs,
            lambda: Run(CONVERT, given=path, out=out, error=report),
            lambda: Run([*CHECK, path, out, report], out=verdicts),
        )
        if convert.status != 0 or line_count(report) != given.records:
            end(f"convert ended with status {convert.status} and reported {line_count(report)} records of {given.records}")
        if check.status != 0 or line_count(verdicts) != given.records:
            end(f"check ended with status {check.status} and gave {line_count(verdicts)} verdicts of {given.records}")
    print(f"convert {convert.seconds:.2f} s, check {check.seconds:.2f} s, ratio {check.seconds / convert.seconds:.2f}")
    if check.seconds > convert.seconds:
        end("check is slower than convert")


if __name__ == "__main__":
    main()
