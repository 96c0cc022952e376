#!/usr/bin/env python3
"""Measures how long the base blocks and the blocks of a design take, and prints a table of nanoseconds a block.

designs.py [PROGRAM]    PROGRAM is built by the command rt in a folder of its own where it isn't given

Of each problem the first designs are found, and of each design the base blocks, or all blocks, are listed for some rounds.
The seconds are those of the processor, of a run less those of a run without rounds, which finds the designs alone. A pass of
the vector stands beside the base blocks: it is one for each round and design.
"""
import os, pathlib, subprocess, sys, tempfile

import crates

CRATES = ["df_lang", "df_matrix", "df_search", "df_steps", "df_subsets", "df_walk", "df_design"]

PROBLEMS = (
    # what it is, its source, the most designs, rounds
    ("2-(25,3,1) cyclic", "group 25/k 3/lambda 1", 240, 200),
    ("2-(15,3,1), no maps", "group 15/shift none/k 3/lambda 1", 200, 500),
    ("2-(13,3,1) cyclic", "group 13/k 3/lambda 1", 4, 20000),
    ("2-(37,4,1) cyclic", "group 37/k 4/lambda 1", 200, 100),
    ("2-(64,4,1), 2 2 2 2 2 2", "group 2 2 2 2 2 2/mult 1/k 4/lambda 1", 50, 20),
    ("2-(64,4,1), short orbits", "group 4 4 4/k 4/lambda 1", 50, 400),
    ("2-(21,5,1) cyclic", "group 21/k 5/lambda 1", 2, 20000),
    # more blocks than are held ready
    ("2-(25,3,23), all triples", "group 25/k 3/lambda 23", 1, 200),
)

PROGRAM = '''//! Lists the first designs of a problem: listings TEXT HOW ROUNDS DESIGNS, where the lines of TEXT stand between strokes, and HOW is 0 for base blocks and 1 for all blocks.
#![tactic(auto)]

ghost use Rattle.std.specs.Prelude.{◌≡◌, ◌<◌, IsSome};

use df_design::{Designs, Rules, Turn};
use df_lang::parse;
use df_matrix::{OrbitMatrix, build};
use df_steps::Steps;
use std::alloc::Global;
use std::env;
use std::marker::Brand;
use std::process::Abort;
use std::sync::ledger::{Blank, Ledger};

// More blocks than a design has.
const MOST: u64 = 4_000_000_000;

// How many base blocks, or blocks, the design that was found has, over some rounds.
fn list(rt: &impl Abort, designs: &Designs<'_>, how: u64, rounds: u64) -> u64
    requires { IsSome designs.now.search.chosen }
{
    let mut listed: u64 = 0;
    for _ in 0..rounds {
        if how == 0 {
            let mut reps = designs.reps();
            for _ in 0..MOST {
                if reps.next().is_none() {
                    break;
                }
                listed = listed.wrapping_add(1);
            }
        } else {
            let mut blocks = designs.blocks();
            for _ in 0..MOST {
                if blocks.next().is_none() {
                    break;
                }
                listed = listed.wrapping_add(1);
            }
        }
    }
    assert!(rt; rounds == 0 || listed > 0);
    listed
}

// How many designs were found, and what was listed.
fn run<L: Ledger>(
    rt: &impl Abort,
    alloc: Global,
    matrix: &OrbitMatrix,
    how: u64,
    rounds: u64,
    most: u64,
    blank: Blank,
) -> (u64, u64)
    requires name { blank.name ≡ L.name }
    requires parts { blank.parts ≡ L.parts }
    requires blanks { 0 < blank.parts }
{
    let mut steps = Steps::<L>::new(blank);
    let designs = Designs::start(alloc, matrix, Rules::Divisor, &mut steps);
    let mut designs = designs.expect(rt, "memory");
    let mut budget = 1_000_000_000;
    let mut listed: u64 = 0;
    for found in 0..most {
        match designs.next(&mut budget, &mut steps) {
            Turn::Design => listed = listed.wrapping_add(list(rt, &designs, how, rounds)),
            _ => return (found, listed),
        }
    }
    (most, listed)
}

fn main(rt: HostRuntime) {
    let alloc = rt.alloc();
    let mut text = Vec::new(alloc);
    let mut numbers = Vec::new(alloc);
    for (place, word) in env::args(&rt).expect(&rt, "words").skip(1).enumerate() {
        if place == 0 {
            for byte in word.as_bytes() {
                let byte = if *byte == b'/' { b'\\n' } else { *byte };
                text.push(byte).expect(&rt, "memory");
            }
        } else {
            numbers.push(word.parse::<u64>().unwrap_or(0)).expect(&rt, "memory");
        }
    }
    let (how, rounds, most) = match numbers.as_slice() {
        [how, rounds, most] => (*how, *rounds, *most),
        _ => return,
    };
    if text.len() > 1000 {
        return;
    }
    let problem = parse(alloc, &text).expect(&rt, "a problem");
    let matrix = build(alloc, &problem).expect(&rt, "a matrix");
    let (found, listed) = run::<Brand>(&rt, alloc, &matrix, how, rounds, most, Blank::new(1));
    println!(&rt; "{found} {listed}").expect(&rt, "output");
}
'''

PROOFS = {
    "main": '''use Rattle.listings.proofs.main.Given as goal

abbrev pub ghosts-run : goal.ghosts-run
ghosts-run g a = record { name = a.blank.name; parts = a.blank.parts }
''',
}


def build(folder):
    return crates.build(folder, "listings", CRATES, PROGRAM, PROOFS, ["group 7/k 3/lambda 1", "0", "1", "1"])


def run(program, words):
    """How many designs were found, how many blocks were listed, and the seconds of the processor."""
    child = subprocess.Popen([program, *map(str, words)], stdout=subprocess.PIPE)
    found, listed = map(int, child.stdout.read().split())
    _, status, usage = os.wait4(child.pid, 0)
    child.returncode = os.waitstatus_to_exitcode(status)
    if child.returncode != 0:
        sys.exit(f"status {child.returncode}")
    return found, listed, usage.ru_utime


def main():
    with tempfile.TemporaryDirectory() as name:
        program = pathlib.Path(sys.argv[1]).resolve() if len(sys.argv) > 1 else build(pathlib.Path(name))
        print(f"{'problem':26} {'':>11} {'designs':>7} {'in each':>8} {'seconds':>8} {'ns/block':>8} {'ns/design':>10}")
        for title, text, most, rounds in PROBLEMS:
            bare = min(run(program, (text, 0, 0, most))[2] for _ in range(3))
            for how, kind in enumerate(("base blocks", "blocks")):
                # base blocks are listed in far less time than blocks
                turns = rounds if how else 100 * rounds
                runs = [run(program, (text, how, turns, most)) for _ in range(3)]
                found, listed, _ = runs[0]
                taken = min(seconds for _, _, seconds in runs) - bare
                each = listed / max(found * turns, 1)
                words = f"{title:26} {kind:>11} {found:>7} {each:>8.1f} {taken:>8.3f}"
                print(f"{words} {taken / max(listed, 1) * 1e9:>8.1f} {taken / max(found * turns, 1) * 1e9:>10.1f}", flush=True)


if __name__ == "__main__":
    main()
