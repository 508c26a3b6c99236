#!/usr/bin/env python3
"""Whether molecules as chemists know them are placed, planned and read back, and the time of placing as sizes double.

The tests stand in a crate of their own above placing and planning, which this script writes into a folder of its own beside
copies of the crates that they stand on. The molecules, and what reads a plan back, are those of the tests of `lay_place`
and of `lay_wedge`. With --instructions the instructions of one call of `place` are counted in place of time."""

import argparse
import math
import os
import shutil
import subprocess
import tempfile

from program import end
from test_crate import built, counted, home, read, write
from test_crate import TOP

NAME = "placing"
CRATES = "mc_base mc_elements mc_digits mc_io ct_sd mc_mol mc_rings ct_geometry lay_place lay_wedge".split()
MODULES = {"lay_place": ["stereo", "skeletons"], "lay_wedge": ["choices", "molecules", "plain_reading", "planned", "sameness", "sides", "tables"]}
SHAPES = ["chain", "polyene", "dendrimer", "rings"]
SKELETONS = "steroid morphine cubane crown_with_double_bonds_outside spiro_chain dendrimer chain_of_333_centres chain_of_double_bonds sulfoxide".split()
SPEED = """//! How long placing takes.
ghost use Rattle.lay_place.specs.Wanted.{MayBePlaced};

use crate::tests::stereo::{carbons, dress_all, join, may_be_placed};
use lay_place::place;
use mc_base::NoMemory;
use mc_mol::Mol;
use mc_rings::Rings;
use std::alloc::Global;
use std::test::Fail;
use std::time::Instant;

const SIZES: [u32; 6] = [20, 62, 125, 250, 500, 999];

/// Places a molecule so many times.
fn place_times(alloc: Global, mol: &Mol, rings: &Rings, runs: u32) -> Result<(), NoMemory>
    requires { MayBePlaced mol.now rings.now }
{
    for _ in 0..runs {
        let _drawing = place(alloc, mol, rings)?;
    }
    Ok(())
}

/// Prints the number of atoms, and the nanoseconds of RUNS calls.
fn measure(rt: &HostRuntime, mol: &Mol) -> Result<(), Fail> {
    let rings = Rings::of(rt.alloc(), mol)?;
    if !may_be_placed(mol, &rings) {
        return Ok(());
    }
    place_times(rt.alloc(), mol, &rings, 1)?;
    let start = Instant::now(rt)?;
    place_times(rt.alloc(), mol, &rings, RUNS)?;
    let taken = start.elapsed(rt)?;
    println!(rt; "{} {}", mol.atom_count(), taken.as_nanos())?;
    Ok(())
}

/// A molecule with all its centres and sides is measured.
fn dressed(rt: &HostRuntime, mut mol: Mol) -> Result<(), Fail> {
    dress_all(rt.alloc(), &mut mol, u32::MAX)?;
    measure(rt, &mol)
}

/// A chain of centres with two neighbours more each.
#[test]
fn chain(rt: HostRuntime) -> Result<(), Fail> {
    for atoms in SIZES {
        let mut mol = carbons(rt.alloc(), atoms)?;
        let links = atoms / 3;
        for a in 0..links {
            let _ = join(&mut mol, a, a.saturating_add(links), 1);
            let _ = join(&mut mol, a, a.saturating_add(links).saturating_add(links), 1);
            if a > 0 {
                let _ = join(&mut mol, a.saturating_sub(1), a, 1);
            }
        }
        dressed(&rt, mol)?;
    }
    Ok(())
}

/// A chain in which each second bond is double and specified.
#[test]
fn polyene(rt: HostRuntime) -> Result<(), Fail> {
    for atoms in SIZES {
        let mut mol = carbons(rt.alloc(), atoms)?;
        for a in 0..atoms {
            let order = if a % 2 == 1 { 2 } else { 1 };
            let _ = join(&mut mol, a, a.saturating_add(1), order);
        }
        dressed(&rt, mol)?;
    }
    Ok(())
}

/// Each atom but the last ones has two more behind it, and is a centre.
#[test]
fn dendrimer(rt: HostRuntime) -> Result<(), Fail> {
    for atoms in SIZES {
        let mut mol = carbons(rt.alloc(), atoms)?;
        for a in 1..atoms {
            let _ = join(&mut mol, a.saturating_sub(1) / 2, a, 1);
        }
        dressed(&rt, mol)?;
    }
    Ok(())
}

/// Rings of six in a row, joined by single bonds.
#[test]
fn rings(rt: HostRuntime) -> Result<(), Fail> {
    for atoms in SIZES {
        let mut mol = carbons(rt.alloc(), atoms)?;
        for a in 0..atoms {
            let _ = join(&mut mol, a, a.saturating_add(1), 1);
            if a % 12 == 0 {
                let _ = join(&mut mol, a, a.saturating_add(5), 1);
            }
        }
        dressed(&rt, mol)?;
    }
    Ok(())
}
"""


def moved(text, crate):
    """A test module of a crate, as one of the tests of a crate above."""
    text = text.replace("crate::proofs::", f"{crate}::proofs::").replace("use crate::place;", "use lay_place::place;").replace("use crate::plan;", "use lay_wedge::plan;")
    return text.replace("\nfn may_be_placed", "\npub fn may_be_placed").replace("use crate::tests::read_back::reads_back;", "use crate::tests::planned::is_right;").replace("reads_back(mol, &drawing)),", "is_right(rt.alloc(), mol, &drawing)? == Some(true)),")


def written(folder, runs):
    """The crate of the tests, with the modules that it takes from the tests below it and their proofs."""
    names = []
    for crate, modules in MODULES.items():
        for module in modules:
            names.append(module)
            write(os.path.join(home(folder, NAME), "src", "tests", f"{module}.rt"), moved(read("crates", crate, "src", "tests", f"{module}.rt"), crate))
            for place, _, files in os.walk(os.path.join(home(TOP, crate), "proofs", "tests", module)):
                for file in files:
                    path = os.path.relpath(os.path.join(place, file), home(TOP, crate))
                    write(os.path.join(home(folder, NAME), path), read("crates", crate, path).replace(f"Rattle.{crate}.proofs.tests.", f"Rattle.{NAME}.proofs.tests."))
    write(os.path.join(home(folder, NAME), "src", "tests", "speed.rt"), SPEED.replace("RUNS", str(runs)))
    write(os.path.join(home(folder, NAME), "src", "tests.rt"), "".join(f"mod {name};\n" for name in sorted([*names, "speed"])))
    write(os.path.join(home(folder, NAME), "src", "lib.rt"), "//! Placing and planning, one behind the other.\n#![tactic(auto)]\n\n#[cfg(test)]\nmod tests;\n")


def main():
    words = argparse.ArgumentParser(description=__doc__)
    words.add_argument("--runs", type=int, default=20, help="how often a molecule is placed, by the clock")
    words.add_argument("--instructions", action="store_true", help="count instructions in place of time")
    given = words.parse_args()
    if given.instructions and shutil.which("valgrind") is None:
        end("valgrind isn't installed\n")
    wrong = []
    with tempfile.TemporaryDirectory() as folder:
        runs = 1 if given.instructions else given.runs
        written(folder, runs)
        tests = built(folder, NAME, CRATES)
        for skeleton in SKELETONS:
            child = subprocess.run([tests, f"tests::skeletons::{skeleton}"], capture_output=True, text=True)
            right = child.returncode == 0 and "test result: ok" in child.stdout
            print(f"{skeleton:<32} {'reads back' if right else 'DOES NOT READ BACK'}", flush=True)
            wrong += [] if right else [skeleton]
        print(f"{'shape':<10} {'atoms':>6} {'thousands' if given.instructions else 'call, us':>12} {'power':>6}")
        for shape in SHAPES:
            test = f"tests::speed::{shape}"
            if given.instructions:
                text, counts = counted(tests, test, "lay_place::draw::place", folder)
                # each molecule is placed once before the call that counts
                counts = counts[1::2]
            else:
                text, counts = subprocess.run([tests, test], capture_output=True, text=True).stdout, None
            rows = [tuple(map(int, line.split())) for line in text.splitlines() if len(line.split()) == 2 and all(word.isdigit() for word in line.split())]
            last = None
            for k, (atoms, nanoseconds) in enumerate(rows):
                taken = (counts[k] if counts else nanoseconds / runs) / 1000
                power = f"{math.log(taken / last[1]) / math.log(atoms / last[0]):6.2f}" if last and taken > 0 else ""
                print(f"{shape:<10} {atoms:>6} {taken:>12.1f} {power:>6}", flush=True)
                last = (atoms, taken)
    if wrong:
        end(f"{len(wrong)} molecules don't read back\n")


if __name__ == "__main__":
    main()
