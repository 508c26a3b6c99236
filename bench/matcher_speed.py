#!/usr/bin/env python3
"""The time of the matcher as sizes double, for shapes that ask different things of it, by the clock or by instructions.

The graphs are made by tests of a crate that this script writes into a folder of its own, beside copies of the crates that
the matcher stands on. `rt test` builds them; each shape is then one run of the built tests, which solves each graph in one
room and prints its nodes, its edges and the time. With --instructions each shape is run once under callgrind, which
counts the instructions of one call; a machine that does other work too doesn't change them."""

import argparse
import math
import os
import shutil
import subprocess
import tempfile

from program import end
from test_crate import built, counted, home, write

CRATES = ["mc_base", "match_barrier", "match_blossom"]
NAME = "matcher_speed"
SHAPES = ["rings", "ladder", "nested", "descending", "deep", "arms", "hubs", "random", "dense"]
LIB = "//! Solves graphs of several shapes, as sizes double.\n#![tactic(auto)]\n\n#[cfg(test)]\nmod tests;\n"
INVARIANT = """use Rattle.std.proofs.Common.{◌≡◌}
use Rattle.matcher_speed.proofs.tests.solve_times.Given as goal

abbrev pub invariant-loop : goal.invariant-loop
invariant-loop l = l.matcher ≡ l.initial.matcher
"""
TESTS = """ghost use Rattle.std.specs.Prelude.{◌≡◌, ℕ, ◌<◌, ◌≤◌, length};

use match_barrier::Graph;
use match_blossom::{Matched, Matcher};
use std::test::Fail;
use std::time::Instant;

// Even and odd numbers of nodes in turn: of a graph with an odd one a search must fail.
const SIZES: [u32; 10] = [312, 313, 624, 625, 1250, 1249, 2500, 2499, 4998, 4999];

/// Adds an edge where there can be one.
fn join(graph: &mut Graph, u: u32, v: u32) -> Result<(), Fail> {
    let nodes = graph.node_count();
    if u < nodes && v < nodes && u != v && !graph.are_adjacent(u, v) {
        graph.add_edge(u, v)?;
    }
    Ok(())
}

/// Solves a graph so many times in one room.
fn solve_times(graph: &Graph, matcher: &mut Matcher, runs: u32)
    requires { length graph.now ≤ matcher.old }
    ensures { matcher.new ≡ matcher.old }
{
    for _ in 0..runs {
        match matcher.solve(graph) {
            Matched::Perfect(_) => {}
            Matched::Barrier(_) => {}
        }
    }
}

/// Twice the number of edges.
fn ends(graph: &Graph) -> usize {
    let mut ends = 0usize;
    for v in 0..graph.node_count() {
        ends = ends.saturating_add(graph.neighbours(v).len());
    }
    ends
}

/// Prints the number of nodes, that of edges, and the nanoseconds of RUNS calls.
fn measure(rt: &HostRuntime, graph: &Graph) -> Result<(), Fail> {
    let nodes = graph.node_count();
    let mut matcher = Matcher::reserve(rt.alloc(), nodes, 0)?;
    let edges = ends(graph) / 2;
    solve_times(graph, &mut matcher, 1);
    let start = Instant::now(rt)?;
    solve_times(graph, &mut matcher, RUNS);
    let taken = start.elapsed(rt)?;
    println!(rt; "{nodes} {edges} {}", taken.as_nanos())?;
    Ok(())
}

/// Rings of six that share bonds with the next ones.
#[test]
fn rings(rt: HostRuntime) -> Result<(), Fail> {
    for nodes in SIZES {
        let mut graph = Graph::new(rt.alloc(), nodes)?;
        for v in 0..nodes {
            join(&mut graph, v, v.saturating_add(1))?;
            if v % 4 == 0 {
                join(&mut graph, v, v.saturating_add(5))?;
            }
        }
        measure(&rt, &graph)?;
    }
    Ok(())
}

#[test]
fn ladder(rt: HostRuntime) -> Result<(), Fail> {
    for nodes in SIZES {
        let mut graph = Graph::new(rt.alloc(), nodes)?;
        for v in 0..nodes {
            join(&mut graph, v, v.saturating_add(2))?;
            if v % 2 == 0 {
                join(&mut graph, v, v.saturating_add(1))?;
            }
        }
        measure(&rt, &graph)?;
    }
    Ok(())
}

/// Contracting the first triangle makes the second a cycle through it, and so on: all have one base.
#[test]
fn nested(rt: HostRuntime) -> Result<(), Fail> {
    for nodes in SIZES {
        let mut graph = Graph::new(rt.alloc(), nodes)?;
        for v in 0..nodes {
            join(&mut graph, v, v.saturating_add(1))?;
            if v % 2 == 0 {
                join(&mut graph, v, v.saturating_add(2))?;
            }
        }
        measure(&rt, &graph)?;
    }
    Ok(())
}

/// The outer node of a way up from the root, which is the last node but one.
fn outer_node(place: u32, pairs: u32) -> u32 {
    if place == 0 {
        pairs.saturating_mul(4)
    } else {
        place.saturating_mul(4).saturating_sub(3)
    }
}

/// A way up from a free node, at whose end a triangle is contracted; then cycles close from above down, each with a base
/// of its own.
fn closing_cycles(graph: &mut Graph, pairs: u32) -> Result<(), Fail> {
    for k in 0..pairs {
        let inner = k.saturating_mul(4);
        join(graph, inner, inner.saturating_add(1))?;
        join(graph, inner.saturating_add(2), inner.saturating_add(3))?;
    }
    for k in 0..pairs {
        let inner = k.saturating_mul(4);
        join(graph, outer_node(k, pairs), inner)?;
        if k > 0 {
            join(graph, outer_node(k.saturating_sub(1), pairs), inner.saturating_add(3))?;
            join(graph, inner, inner.saturating_add(2))?;
        }
    }
    join(graph, outer_node(pairs.saturating_sub(1), pairs), outer_node(pairs, pairs))
}

/// Only the last of these cycles leads to the other free node.
#[test]
fn descending(rt: HostRuntime) -> Result<(), Fail> {
    for nodes in SIZES {
        let mut graph = Graph::new(rt.alloc(), nodes)?;
        let pairs = nodes.saturating_sub(2) / 4;
        closing_cycles(&mut graph, pairs)?;
        join(&mut graph, 0, pairs.saturating_mul(4).saturating_add(1))?;
        measure(&rt, &graph)?;
    }
    Ok(())
}

/// The innermost of these cycles leads to the other free node, by a way so long that all are contracted before its end.
#[test]
fn deep(rt: HostRuntime) -> Result<(), Fail> {
    for nodes in SIZES {
        let mut graph = Graph::new(rt.alloc(), nodes)?;
        let pairs = nodes.saturating_sub(6) / 6;
        closing_cycles(&mut graph, pairs)?;
        let free = pairs.saturating_mul(4).saturating_add(1);
        let mut last = pairs.saturating_mul(4).saturating_sub(4);
        for k in 0..pairs.saturating_add(2) {
            let inner = free.saturating_add(1).saturating_add(k.saturating_mul(2));
            join(&mut graph, inner, inner.saturating_add(1))?;
            join(&mut graph, last, inner)?;
            last = inner.saturating_add(1);
        }
        join(&mut graph, last, free)?;
        measure(&rt, &graph)?;
    }
    Ok(())
}

/// Two triangles at the ends of two arms, an edge between them, and two free nodes: the matching is augmented over both.
const ARMS: [(u32, u32); 12] = [
    (0, 1),
    (2, 3),
    (4, 5),
    (6, 7),
    (1, 2),
    (1, 3),
    (5, 6),
    (5, 7),
    (2, 6),
    (8, 0),
    (8, 4),
    (9, 0),
];

#[test]
fn arms(rt: HostRuntime) -> Result<(), Fail> {
    for nodes in SIZES {
        let mut graph = Graph::new(rt.alloc(), nodes)?;
        for k in 0..nodes / 10 {
            let first = k.saturating_mul(10);
            for (u, v) in ARMS {
                join(&mut graph, first.saturating_add(u), first.saturating_add(v))?;
            }
        }
        measure(&rt, &graph)?;
    }
    Ok(())
}

/// Triangles, of each of which one node is joined to each of the single nodes, which come first.
#[test]
fn hubs(rt: HostRuntime) -> Result<(), Fail> {
    for nodes in [202u32, 404, 808, 1616] {
        let mut graph = Graph::new(rt.alloc(), nodes)?;
        let hubs = nodes / 202 * 49;
        for v in 0..nodes {
            let place = v.saturating_sub(hubs);
            let first = v.saturating_sub(place % 3);
            if v >= hubs {
                join(&mut graph, v, first)?;
                join(&mut graph, v, first.saturating_add(1))?;
            }
            if v >= hubs && v == first {
                for hub in 0..hubs {
                    join(&mut graph, hub, v)?;
                }
            }
        }
        measure(&rt, &graph)?;
    }
    Ok(())
}

/// A graph with so many random edges for each node.
fn random_graph(rt: &impl AllocGlobal, nodes: u32, edges: u32) -> Result<Graph, Fail> {
    let mut state: u64 = 20261201;
    let mut graph = Graph::new(rt.alloc(), nodes)?;
    for v in 0..nodes {
        for _ in 0..edges {
            state = state.wrapping_mul(6364136223846793005).wrapping_add(1442695040888963407);
            if nodes > 0 {
                join(&mut graph, v, ((state >> 33) % (nodes as u64)) as u32)?;
            }
        }
    }
    Ok(graph)
}

#[test]
fn random(rt: HostRuntime) -> Result<(), Fail> {
    for nodes in SIZES {
        measure(&rt, &random_graph(&rt, nodes, 2)?)?;
    }
    Ok(())
}

/// Most of these have a perfect matching, found through many blossoms.
#[test]
fn dense(rt: HostRuntime) -> Result<(), Fail> {
    for nodes in SIZES {
        measure(&rt, &random_graph(&rt, nodes, 5)?)?;
    }
    Ok(())
}
"""


def written(folder, runs):
    """The crate of the tests, each of which solves a graph so many times."""
    write(os.path.join(home(folder, NAME), "src", "lib.rt"), LIB)
    write(os.path.join(home(folder, NAME), "src", "tests.rt"), TESTS.replace("RUNS", str(runs)))
    write(os.path.join(home(folder, NAME), "proofs", "tests", "solve_times", "Invariants.antt"), INVARIANT)


def main():
    words = argparse.ArgumentParser(description=__doc__)
    words.add_argument("--runs", type=int, default=100, help="how often a graph is solved, by the clock")
    words.add_argument("--instructions", action="store_true", help="count instructions in place of time")
    given = words.parse_args()
    if given.instructions and shutil.which("valgrind") is None:
        end("valgrind isn't installed\n")
    with tempfile.TemporaryDirectory() as folder:
        runs = 1 if given.instructions else given.runs
        written(folder, runs)
        tests = built(folder, NAME, CRATES)
        unit = "thousands" if given.instructions else "call, us"
        print(f"{'shape':<10} {'nodes':>6} {'edges':>8} {unit:>12} {'power':>6}")
        for shape in SHAPES:
            if given.instructions:
                text, counts = counted(tests, f"tests::{shape}", f"{NAME}::tests::solve_times", folder)
                # each graph is solved once before the call that counts
                counts = counts[1::2]
            else:
                text, counts = subprocess.run([tests, f"tests::{shape}"], capture_output=True, text=True).stdout, None
            rows = [tuple(map(int, line.split())) for line in text.splitlines() if len(line.split()) == 3 and all(word.isdigit() for word in line.split())]
            before = {}
            for k, (nodes, edges, nanoseconds) in enumerate(rows):
                taken = (counts[k] if counts else nanoseconds / runs) / 1000
                last = before.get(nodes % 2)
                power = f"{math.log(taken / last[1]) / math.log(nodes / last[0]):6.2f}" if last and taken > 0 else ""
                print(f"{shape:<10} {nodes:>6} {edges:>8} {taken:>12.1f} {power:>6}", flush=True)
                before[nodes % 2] = (nodes, taken)


if __name__ == "__main__":
    main()
