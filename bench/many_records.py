#!/usr/bin/env python3
"""Records a second over one generated file: molconv, the toolkits that are installed, and a loop that copies lines."""

import argparse
import importlib.util
import os
import shutil
import sys
import tempfile
from functools import partial

from molecules import write_records
from program import CONVERT, COPY_LINES, Run, best, build, end, least_in_turn, line_count

# Reads without sanitization, and writes the Kekule form in the order of the input.
RDKIT = """
import sys
from rdkit import Chem, RDLogger
RDLogger.DisableLog("rdApp.*")
for line in sys.stdin:
    molecule = Chem.MolFromSmiles(line.rstrip("\\n"), sanitize=False)
    print("" if molecule is None else Chem.MolToSmiles(molecule, kekuleSmiles=True, canonical=False))
"""
INDIGO = """
import sys
from indigo import Indigo
indigo = Indigo()
for line in sys.stdin:
    print(indigo.loadMolecule(line.split(" ", 1)[0].rstrip("\\n")).smiles())
"""


def programs(path):
    """The programs to compare, by name: molconv, the copying loop, and each toolkit that is there."""
    yield "molconv", CONVERT
    yield "loop that copies lines", [sys.executable, "-c", COPY_LINES]
    if shutil.which("obabel"):
        yield "Open Babel", ["obabel", "-ismi", path, "-osmi", "-xk"]
    for name, module, script in [("RDKit", "rdkit", RDKIT), ("Indigo", "indigo", INDIGO)]:
        if importlib.util.find_spec(module):
            yield name, [sys.executable, "-c", script]


def main():
    words = argparse.ArgumentParser(description=__doc__)
    words.add_argument("--records", type=int, default=100_000)
    words.add_argument("--runs", type=int, default=3, help="how many runs, of which the least time counts")
    given = words.parse_args()
    build()
    with tempfile.TemporaryDirectory() as folder:
        path, report = (os.path.join(folder, name) for name in ["records.smi", "report.txt"])
        # In a process of its own, so that this one stays small.
        if (child := os.fork()) == 0:
            write_records(path, given.records)
            os._exit(0)
        os.waitpid(child, 0)
        if line_count(path) != given.records:
            end("the records could not be generated")
        print(f"{given.records} records, {os.path.getsize(path)} bytes; least peak that can be told: {best(1, CONVERT).megabytes:.0f} MB")
        compared = {name: (command, os.path.join(folder, f"{name}.out")) for name, command in programs(path)}
        starts = [partial(Run, command, given=path, out=out, error=report) for command, out in compared.values()]
        runs = dict(zip(compared, least_in_turn(given.runs, *starts)))
        ours, written = runs["molconv"], line_count(compared["molconv"][1])
        if ours.status != 0 or written != given.records:
            end(f"molconv ended with status {ours.status} and wrote {written} records of {given.records}")
        print(f"{'program':24} {'seconds':>8} {'records a second':>17} {'molconv is faster':>18} {'peak, MB':>9}")
        for name, run in runs.items():
            rate = given.records / run.seconds
            print(f"{name:24} {run.seconds:8.2f} {rate:17.0f} {run.seconds / ours.seconds:17.1f}x {run.megabytes:9.0f}")


if __name__ == "__main__":
    main()
