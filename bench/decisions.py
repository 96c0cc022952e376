#!/usr/bin/env python3
"""Measures how long a decision takes for each cell that it changes, and prints a table of nanoseconds.

decisions.py [PROGRAM]    PROGRAM is built by the command rt in a folder of its own where it isn't given

A system of n rows and n columns whose entries are all 1 is decided: all columns are taken from the first to the last,
then all decisions are undone, and this again for some rounds. Each take and each undo changes the n cells of a column. The
seconds are those of all rounds less those of a run with no round, which makes the system alone.
"""
import pathlib, subprocess, sys, tempfile, time

import crates

CRATES = ["df_steps", "df_walk", "df_system"]

PROGRAM = '''//! Takes and undoes the columns of a system of ones: decisions ROWS COLUMNS ROUNDS.
#![tactic(auto)]

ghost use Rattle.std.specs.Prelude.{◌≡◌, ◌<◌, length};

use df_steps::Steps;
use df_system::{Partial, System};
use std::env;
use std::marker::Brand;
use std::process::Abort;
use std::sync::ledger::{Blank, Ledger};

// The columns are taken from the first to the last, and then all decisions are undone, `rounds` times.
fn decide<L: Ledger>(partial: &mut Partial, columns: u32, rounds: u32, blank: Blank)
    requires columns { columns ≡ length partial.old.system.columns }
    requires trail { length partial.old.trail ≡ 0 }
    requires some { 0 < columns }
    requires name { blank.name ≡ L.name }
    requires parts { blank.parts ≡ L.parts }
    requires blanks { 0 < blank.parts }
{
    let mut steps = Steps::<L>::new(blank);
    let mut count: u64 = 0;
    let mut column: u32 = 0;
    let moves = (rounds as u64).wrapping_mul((columns as u64).wrapping_mul(2).wrapping_add(1));
    for _ in 0..moves {
        if column < columns {
            if partial.decided(column).is_none() {
                partial.take(column, &mut steps);
                count += 1;
            }
            column += 1;
        } else if count > 0 {
            partial.undo(&mut steps);
            count -= 1;
        } else {
            column = 0;
        }
    }
}

fn main(rt: HostRuntime) {
    let alloc = rt.alloc();
    let mut numbers = Vec::new(alloc);
    for word in env::args(&rt).expect(&rt, "words").skip(1) {
        numbers.push(word.parse::<u32>().unwrap_or(0)).expect(&rt, "memory");
    }
    let (rows, columns, rounds) = match numbers.as_slice() {
        [rows, columns, rounds] => (*rows, *columns, *rounds),
        _ => (0, 0, 0),
    };
    if rows == 0 || columns == 0 || rows > 4096 || columns > 4096 {
        return;
    }
    let targets = vec![in alloc; columns; rows as usize].expect(&rt, "memory");
    let entries = vec![in alloc; 1; (rows * columns) as usize].expect(&rt, "memory");
    if targets.is_empty()
        || targets.len() >= 4294967296
        || entries.len() % targets.len() != 0
        || entries.len() > 16777216
    {
        return;
    }
    let Ok(system) = System::new(alloc, targets, entries) else {
        return;
    };
    let mut partial = Partial::new(alloc, &system).expect(&rt, "memory");
    if system.columns() > 0 {
        decide::<Brand>(&mut partial, system.columns(), rounds, Blank::new(1));
    }
}
'''

PROOFS = {
    "decide": '''use Rattle.std.proofs.Common.{◌≡◌, length}
use Rattle.decisions.proofs.decide.Given as goal

abbrev pub invariant-loop : goal.invariant-loop
invariant-loop g l = record {
  counted : l.count ≡ length l.partial.trail;
  same : l.partial.system ≡ l.initial.partial.system;
}
''',
    "main": '''use Rattle.decisions.proofs.main.Given as goal

abbrev pub ghosts-decide : goal.ghosts-decide
ghosts-decide g a = record { name = a.blank.name; parts = a.blank.parts }
''',
}


def build(folder):
    return crates.build(folder, "decisions", CRATES, PROGRAM, PROOFS, ["0"])


def seconds(program, size, rounds):
    start = time.perf_counter()
    subprocess.run([program, str(size), str(size), str(rounds)], check=True)
    return time.perf_counter() - start


def table(program):
    print(f"{'cells':>9} {'rounds':>7} {'seconds':>8} {'ns/cell':>8}")
    for size, rounds in ((10, 100000), (100, 1000), (1000, 10)):
        empty = min(seconds(program, size, 0) for _ in range(3))
        taken = min(seconds(program, size, rounds) for _ in range(3)) - empty
        changes = 2 * size * size * rounds
        print(f"{size * size:>9} {rounds:>7} {taken:>8.3f} {taken / changes * 1e9:>8.2f}")


def main():
    if len(sys.argv) > 1:
        table(pathlib.Path(sys.argv[1]).resolve())
        return
    with tempfile.TemporaryDirectory() as folder:
        table(build(pathlib.Path(folder)))


if __name__ == "__main__":
    main()
