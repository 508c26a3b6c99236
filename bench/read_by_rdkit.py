#!/usr/bin/env python3
"""How many records of an SD file RDKit reads as the molecules of the SMILES file that it was made from, stereo included.

Lines and records stand one for one. A pair that RDKit doesn't read at all, or whose SMILES it writes in no other form than
without stereo, is left out. It needs RDKit (Debian: python3-rdkit)."""

import argparse

try:
    from rdkit import Chem, RDLogger
except ImportError:
    print("skipped: RDKit isn't installed (Debian: python3-rdkit)")
    raise SystemExit(0) from None


def records(path):
    """The record texts of an SD file, up to their ends."""
    with open(path) as file:
        return file.read().split("$$$$\n")[:-1]


def lines(path):
    with open(path) as file:
        return [line.split()[0] for line in file if line.split()]


def canonical(molecule):
    """RDKit's own text of a molecule, or none where it has none."""
    return None if molecule is None else Chem.MolToSmiles(Chem.RemoveHs(molecule))


def main():
    words = argparse.ArgumentParser(description=__doc__)
    words.add_argument("smiles", help="the SMILES records")
    words.add_argument("drawn", help="the SD records made from them")
    words.add_argument("--show", type=int, default=5, help="how many that are misread are printed")
    given = words.parse_args()
    RDLogger.DisableLog("rdApp.*")
    texts, drawn = lines(given.smiles), records(given.drawn)
    if len(texts) != len(drawn):
        raise SystemExit(f"{len(texts)} SMILES records, {len(drawn)} SD records")
    wanted = [canonical(Chem.MolFromSmiles(text)) for text in texts]
    found = [canonical(Chem.MolFromMolBlock(record)) for record in drawn]
    pairs = [(text, one, other) for text, one, other in zip(texts, wanted, found) if one is not None and other is not None]
    wrong = [pair for pair in pairs if pair[1] != pair[2]]
    print(f"read {len(pairs) - len(wrong)} of {len(pairs)}, left out {len(texts) - len(pairs)}")
    for text, one, other in wrong[: given.show]:
        print(f"  {text}: {one} is read as {other}")


if __name__ == "__main__":
    main()
