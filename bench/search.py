#!/usr/bin/env python3
"""Measures how long a search takes for each node and for each cell that it changes, and prints tables of nanoseconds.

search.py [--program PROGRAM] [--race RACE] [--maker MAKER] [--beside OTHER] [random | matrices | greatest]

PROGRAM and RACE are built by the command rt in folders of their own where they aren't given. With no last word all tables are made.

`random`: the systems are made by numbers that look random: each column has the same number of cells, with entries from 1 to 3
that are multiplied by a factor in the second half of the columns, and each target is half the sum of its row. Of each the first
million nodes are walked, by both rules, by `advance` and by `next`, and beside them by plain loops in C where gcc is there.
The seconds of a search are those of a run less those of a run with no budget, which makes the system alone. The C program
prints the number of nodes, entries and changed cells, which are those of the walk entry by entry, and measures itself.

`matrices`: orbit matrices of difference families are searched by `next`, by the rules with divisors. MAKER prints them by its
command `matrix`; it is crates/df_main/out/df_main where it isn't given. RACE reads a system and measures the search itself, with
its making: the least of three runs. OTHER is another program with a command `solve`, which is timed as a whole beside it.

`greatest`: systems of 16 million cells, of 65,536 columns, or of 12,224 rows, that look random. RACE measures three things apart:
the system as it is made of its entries, the search as it is made of the system, and the walk, by `next` and the rules with divisors.
The least of three runs.
"""
import argparse, pathlib, random, subprocess, sys, tempfile, time

import crates

CRATES = ["df_steps", "df_walk", "df_system", "df_search"]

# the lines of a source, and the most nodes that are walked: 0 for all
MATRICES = (
    (("group 37", "k 3", "lambda 1"), 0),
    (("group 39", "k 3", "lambda 1"), 0),
    (("group 43", "k 3", "lambda 1"), 100000000),
    (("group 37", "k 4", "lambda 1"), 0),
    (("group 40", "k 4", "lambda 1"), 0),
    (("group 10", "shift none", "k 4", "lambda 2"), 20000000),
    (("group 13", "shift none", "k 3", "lambda 2"), 20000000),
    (("group 14", "shift none", "k 4", "lambda 3"), 20000000),
    (("group 19", "shift none", "k 3", "lambda 1"), 20000000),
)

SYSTEMS = (
    # rows, columns, cells of a column, factor
    (4, 60, 1, 1),
    (12, 60, 2, 1),
    (60, 200, 10, 2),
    (200, 1000, 40, 2),
)

BUDGET = 1000000

GREATEST = (
    # rows, columns, cells of a column, least and greatest entry, target of each row: 0 for half of the row's sum
    (256, 65536, 3, 1, 1, 1),
    (256, 65536, 3, 1, 3, 0),
    (256, 65536, 256, 1, 3, 0),
    (12224, 1372, 3, 1, 1, 1),
    (12224, 1372, 12224, 1, 3, 0),
)

PROGRAM = '''//! Walks the first nodes of a system: searches ROWS COLUMNS CELLS FACTOR RULES BUDGET HOW, where RULES is 0 or 1, and HOW is 0 for `advance` and 1 for `next`.
#![tactic(auto)]

ghost use Rattle.std.specs.Prelude.{◌≡◌, ◌<◌};

use df_search::{Event, Search, Turn};
use df_steps::Steps;
use df_system::{Rules, System};
use std::alloc::Global;
use std::env;
use std::marker::Brand;
use std::process::Abort;
use std::sync::ledger::{Blank, Ledger};

const LIMIT: u64 = 1000000000000;

#[derive(Drop)]
struct Numbers {
    state: u64,
}

impl Numbers {
    fn next(&mut self, below: u32) -> u32
        requires { 0 < below }
    {
        self.state = self
            .state
            .wrapping_mul(6364136223846793005)
            .wrapping_add(1442695040888963407);
        (self.state / 8589934592) as u32 % below
    }
}

// The entries, column after column.
fn entries(
    rt: &impl Abort,
    alloc: Global,
    rows: u32,
    columns: u32,
    width: u32,
    factor: u32,
) -> Vec<u32>
    requires rows { 0 < rows }
    requires width { 0 < width }
{
    let mut numbers = Numbers { state: 5 };
    let mut entries = Vec::new(alloc);
    for column in 0..columns {
        let first = numbers.next(rows);
        let mut dense = vec![in alloc; 0; rows as usize].expect(rt, "memory");
        for place in 0..width {
            let row = first.wrapping_add(place.wrapping_mul(rows / width)) % rows;
            let times = if column < columns / 2 { 1 } else { factor };
            let value = numbers.next(3).wrapping_add(1).wrapping_mul(times);
            if let Some(entry) = dense.get_mut(row as usize) {
                *entry = value;
            }
        }
        entries.extend_from_slice(&dense).expect(rt, "memory");
    }
    entries
}

// Half the sum of each row.
fn targets(rt: &impl Abort, alloc: Global, rows: u32, entries: &[u32]) -> Vec<u32>
    requires { 0 < rows }
{
    let mut sums = vec![in alloc; 0u32; rows as usize].expect(rt, "memory");
    for (place, entry) in entries.iter().enumerate() {
        if let Some(sum) = sums.get_mut(place % rows as usize) {
            *sum = sum.wrapping_add(*entry);
        }
    }
    for sum in sums.iter_mut() {
        *sum /= 2;
    }
    sums
}

// Steps through the walk up to its end or that of the budget.
fn advance<L: Ledger>(
    rt: &impl Abort,
    alloc: Global,
    system: &System,
    rules: Rules,
    mut budget: u64,
    blank: Blank,
) -> u64
    requires name { blank.name ≡ L.name }
    requires parts { blank.parts ≡ L.parts }
    requires blanks { 0 < blank.parts }
{
    let mut steps = Steps::<L>::new(blank);
    let mut search = Search::new(alloc, system, rules, &mut steps).expect(rt, "memory");
    for _ in 0..LIMIT {
        match search.advance(&mut budget, &mut steps) {
            Event::Spent | Event::Finished => return budget,
            _ => {}
        }
    }
    budget
}

// The same from solution to solution.
fn next<L: Ledger>(
    rt: &impl Abort,
    alloc: Global,
    system: &System,
    rules: Rules,
    mut budget: u64,
    blank: Blank,
) -> u64
    requires name { blank.name ≡ L.name }
    requires parts { blank.parts ≡ L.parts }
    requires blanks { 0 < blank.parts }
{
    let mut steps = Steps::<L>::new(blank);
    let mut search = Search::new(alloc, system, rules, &mut steps).expect(rt, "memory");
    for _ in 0..LIMIT {
        match search.next(&mut budget, &mut steps) {
            Turn::Design => {}
            _ => return budget,
        }
    }
    budget
}

fn main(rt: HostRuntime) {
    let alloc = rt.alloc();
    let mut numbers = Vec::new(alloc);
    for word in env::args(&rt).expect(&rt, "words").skip(1) {
        numbers.push(word.parse::<u32>().unwrap_or(0)).expect(&rt, "memory");
    }
    let (rows, columns, width, factor, rules, budget, how) = match numbers.as_slice() {
        [rows, columns, width, factor, rules, budget, how] => (
            *rows, *columns, *width, *factor, *rules, *budget, *how,
        ),
        _ => return,
    };
    if rows == 0 || width == 0 {
        return;
    }
    let entries = entries(&rt, alloc, rows, columns, width, factor);
    let targets = targets(&rt, alloc, rows, &entries);
    if targets.is_empty()
        || targets.len() >= 4294967296
        || entries.len() % targets.len() != 0
        || entries.len() > 16777216
    {
        return;
    }
    let Ok(system) = System::new(alloc, targets, entries) else {
        return;
    };
    let rules = if rules == 0 { Rules::Plain } else { Rules::Divisor };
    let left = if how == 0 {
        advance::<Brand>(&rt, alloc, &system, rules, budget as u64, Blank::new(1))
    } else {
        next::<Brand>(&rt, alloc, &system, rules, budget as u64, Blank::new(1))
    };
    assert!(&rt; left <= budget as u64);
}
'''

PROOFS = {
    "main": '''use Rattle.searches.proofs.main.Given as goal

abbrev pub ghosts-advance : goal.ghosts-advance
ghosts-advance g a = record { name = a.blank.name; parts = a.blank.parts }

abbrev pub ghosts-next : goal.ghosts-next
ghosts-next g a = record { name = a.blank.name; parts = a.blank.parts }
''',
}

RACE = '''//! Walks a system on standard input, with a budget where one is given, and prints how many solutions and nodes it passed, and how long that took with the making of the search.
//! Then how long it takes to make a search alone, and how long it took to make the system.
//! The input is numbers: the number of rows, a target for each, and the entries, column after column.
#![tactic(auto)]

ghost use Rattle.std.specs.Prelude.{◌≡◌, ◌<◌};

use df_io::{StdSource, read_all};
use df_search::{Rules, Search, Turn};
use df_steps::Steps;
use df_system::{MOST_ENTRIES, ROW_LIMIT, System};
use std::alloc::{AllocError, Global};
use std::io;
use std::marker::Brand;
use std::rt::Env;
use std::env;
use std::sync::ledger::{Blank, Ledger};
use std::time::Instant;

const BUDGET: u64 = 1000000000000;

// Walks on while solutions come.
fn count<L: Ledger>(search: &mut Search<'_>, budget: &mut u64, steps: &mut Steps<L>) -> u64 {
    let mut solutions: u64 = 0;
    for _ in 0..BUDGET {
        match search.next(budget, steps) {
            Turn::Design => solutions = solutions.wrapping_add(1),
            _ => return solutions,
        }
    }
    solutions
}

fn counted<L: Ledger>(alloc: Global, system: &System, budget: &mut u64, blank: Blank) -> Option<u64>
    requires name { blank.name ≡ L.name }
    requires parts { blank.parts ≡ L.parts }
    requires some { 0 < blank.parts }
{
    let mut steps = Steps::<L>::new(blank);
    let mut search = Search::new(alloc, system, Rules::Divisor, &mut steps).ok()?;
    Some(count(&mut search, budget, &mut steps))
}

fn budget_of(rt: &(impl Env + AllocGlobal)) -> u64 {
    let Ok(mut words) = env::args(rt) else {
        return BUDGET;
    };
    match words.nth(1) {
        Some(word) => word.as_str().parse::<u64>().unwrap_or(BUDGET),
        None => BUDGET,
    }
}

fn numbers(alloc: Global, bytes: &[u8]) -> Result<Vec<u32>, AllocError> {
    let mut found = Vec::new(alloc);
    let mut number: u32 = 0;
    let mut inside = false;
    for byte in bytes {
        if *byte >= 48 && *byte < 58 {
            number = number.wrapping_mul(10).wrapping_add((*byte - 48) as u32);
            inside = true;
        } else if inside {
            found.push(number)?;
            number = 0;
            inside = false;
        }
    }
    Ok(found)
}

fn system_of(alloc: Global, numbers: &[u32]) -> Option<System> {
    if numbers.is_empty() {
        return None;
    }
    let rows = numbers[0] as usize;
    if rows == 0 || rows >= numbers.len() {
        return None;
    }
    let targets = Vec::from_slice(alloc, &numbers[1..rows + 1]).ok()?;
    let entries = Vec::from_slice(alloc, &numbers[rows + 1..]).ok()?;
    if targets.is_empty()
        || targets.len() >= ROW_LIMIT
        || entries.len() % targets.len() != 0
        || entries.len() > MOST_ENTRIES
    {
        return None;
    }
    System::new(alloc, targets, entries).ok()
}

fn main(rt: HostRuntime) -> io::Result<()> {
    let mut input = StdSource::new(rt.reader());
    let Ok(bytes) = read_all(rt.alloc(), &mut input, 268435456) else {
        return Ok(());
    };
    let Ok(numbers) = numbers(rt.alloc(), &bytes) else {
        return Ok(());
    };
    let begun = Instant::now(&rt)?;
    let Some(system) = system_of(rt.alloc(), &numbers) else {
        println!(rt; "no system")?;
        return Ok(());
    };
    let read = begun.elapsed(&rt)?;
    let mut none = 0;
    let made = Instant::now(&rt)?;
    let Some(_) = counted::<Brand>(rt.alloc(), &system, &mut none, Blank::new(1)) else {
        println!(rt; "no memory")?;
        return Ok(());
    };
    let making = made.elapsed(&rt)?;
    let start = budget_of(&rt);
    let mut budget = start;
    let before = Instant::now(&rt)?;
    let Some(solutions) = counted::<Brand>(rt.alloc(), &system, &mut budget, Blank::new(1)) else {
        println!(rt; "no memory")?;
        return Ok(());
    };
    let took = before.elapsed(&rt)?;
    let nodes = start.wrapping_sub(budget);
    println!(rt; "rows {} columns {} solutions {solutions} nodes {nodes} us {} making {} system {}", system.rows(), system.columns(), took.as_micros(), making.as_micros(), read.as_micros())?;
    Ok(())
}
'''

RACE_PROOFS = {
    "main": '''use Rattle.race.proofs.main.Given as goal

abbrev pub ghosts-counted : goal.ghosts-counted
ghosts-counted a = record { name = a.blank.name; parts = a.blank.parts }
''',
}

LOOPS = r'''// Walks the first nodes of a system by plain loops: walk ROWS COLUMNS CELLS FACTOR RULES BUDGET.
#include <stdint.h>
#include <stdio.h>
#include <stdlib.h>
#include <time.h>

static uint64_t state = 5;

static uint32_t draw(uint32_t below) {
    state = state * 6364136223846793005u + 1442695040888963407u;
    return (uint32_t)(state >> 33) % below;
}

struct cell { uint32_t row, value; };

static uint32_t rows, columns, width;
static struct cell *cells;
static uint64_t *target, *taken, *cap;
static uint32_t *divisors;
static uint32_t over, under, unmet;

static uint32_t common(uint32_t a, uint32_t b) {
    while (b) { uint32_t rest = a % b; a = b; b = rest; }
    return a;
}

static void count(uint32_t row, uint32_t sign) {
    over += sign * (taken[row] > target[row]);
    under += sign * (taken[row] + cap[row] < target[row]);
    unmet += sign * (taken[row] != target[row]);
}

static void change(uint32_t column, int64_t take, int64_t leave) {
    for (struct cell *c = cells + column * width; c < cells + (column + 1) * width; c++) {
        count(c->row, -1);
        taken[c->row] += take * (int64_t)c->value;
        cap[c->row] += leave * (int64_t)c->value;
        count(c->row, 1);
    }
}

static int residue(uint32_t length) {
    for (uint32_t row = 0; row < rows; row++) {
        uint32_t divisor = divisors[length * rows + row];
        if (divisor > 1 && (target[row] - taken[row]) % divisor) return 1;
    }
    return 0;
}

int main(int argc, char **argv) {
    if (argc < 7) return 1;
    rows = atoi(argv[1]), columns = atoi(argv[2]), width = atoi(argv[3]);
    uint32_t factor = atoi(argv[4]), rules = atoi(argv[5]);
    uint64_t budget = atoll(argv[6]), nodes = 0, entries = 0, solutions = 0, changes = 0;
    cells = malloc(sizeof *cells * columns * width);
    target = calloc(rows, 8), taken = calloc(rows, 8), cap = calloc(rows, 8);
    divisors = calloc((columns + 1) * rows, 4);
    for (uint32_t column = 0; column < columns; column++) {
        uint32_t first = draw(rows);
        uint32_t dense[4096] = {0};
        for (uint32_t i = 0; i < width; i++) {
            uint32_t row = (first + i * (rows / width)) % rows;
            dense[row] = (1 + draw(3)) * (column < columns / 2 ? 1 : factor);
        }
        uint32_t n = 0;
        for (uint32_t row = 0; row < rows; row++)
            if (dense[row]) {
                cells[column * width + n++] = (struct cell){row, dense[row]};
                cap[row] += dense[row];
            }
    }
    for (uint32_t column = columns; column-- > 0;) {
        for (uint32_t row = 0; row < rows; row++) divisors[column * rows + row] = divisors[(column + 1) * rows + row];
        for (uint32_t i = 0; i < width; i++) {
            struct cell c = cells[column * width + i];
            divisors[column * rows + c.row] = common(c.value, divisors[column * rows + c.row]);
        }
    }
    for (uint32_t row = 0; row < rows; row++) target[row] = cap[row] / 2, count(row, 1);
    uint8_t *path = calloc(columns + 1, 1);
    uint32_t length = 0;
    struct timespec a, b;
    clock_gettime(CLOCK_MONOTONIC, &a);
    for (;;) {
        int leaf = over || under || (rules && residue(length));
        if (!leaf) {
            if (nodes == budget) break;
            nodes++;
        }
        entries++;
        if (!leaf && unmet) {
            path[length] = 1;
            change(length++, 1, -1), changes += width;
            continue;
        }
        solutions += !leaf;
        int found = 0;
        while (length && !found) {
            length--;
            found = path[length];
            change(length, found ? -1 : 0, 1), changes += width;
        }
        if (!found) break;
        path[length] = 0;
        change(length++, 0, -1), changes += width;
    }
    clock_gettime(CLOCK_MONOTONIC, &b);
    printf("%llu %llu %llu %llu %.9f\n", (unsigned long long)nodes, (unsigned long long)entries, (unsigned long long)solutions, (unsigned long long)changes, (b.tv_sec - a.tv_sec) + (b.tv_nsec - a.tv_nsec) * 1e-9);
}
'''


def seconds(program, words):
    start = time.perf_counter()
    subprocess.run([program, *map(str, words)], check=True)
    return time.perf_counter() - start


def loops(program, system, rules):
    runs = [subprocess.run([program, *map(str, system), str(rules), str(BUDGET)], check=True, capture_output=True, text=True) for _ in range(3)]
    nodes, entries, solutions, changes, _ = runs[0].stdout.split()
    return int(nodes), int(entries), int(changes), min(float(run.stdout.split()[4]) for run in runs)


def search(program, system, rules, how):
    empty = min(seconds(program, (*system, rules, 0, how)) for _ in range(3))
    return min(seconds(program, (*system, rules, BUDGET, how)) for _ in range(3)) - empty


def table(program, plain):
    print(f"{'rows':>4} {'columns':>7} {'cells':>5} {'rules':>8} {'nodes':>8} {'changes':>9} {'':>8} {'seconds':>8} {'ns/node':>8} {'ns/cell':>8}")
    for system in SYSTEMS:
        for rules in (0, 1):
            nodes, changes, lines = BUDGET, None, []
            if plain is not None:
                nodes, _, changes, taken = loops(plain, system, rules)
                lines.append(("C", taken))
            for how, name in enumerate(("advance", "next")):
                lines.append((name, search(program, system, rules, how)))
            for name, taken in lines:
                cells = f"{taken / changes * 1e9:>8.2f}" if changes else f"{'':>8}"
                words = f"{system[0]:>4} {system[1]:>7} {system[2]:>5} {('plain', 'divisor')[rules]:>8} {nodes:>8} {changes or '':>9}"
                print(f"{words} {name:>8} {taken:>8.3f} {taken / nodes * 1e9:>8.1f} {cells}", flush=True)


def system_of(maker, lines):
    """A system as numbers: how many rows, their targets, and the entries of the kept orbits, one after another."""
    source = ("\n".join(lines) + "\n").encode()
    text = subprocess.run([maker, "matrix"], input=source, check=True, capture_output=True).stdout.decode()
    targets, columns = [], []
    for line in text.splitlines():
        words = line.split()
        if words[0] == "row":
            targets.append(words[-1])
        elif words[0] == "orbit" and words[-2] == "column":
            columns.append(words[words.index("entries") + 1 : -2])
    return len(targets), len(columns), " ".join([str(len(targets)), *targets, *sum(columns, [])]) + "\n"


def beside(other, lines, budget):
    """The seconds of the other program's `solve`, with all that it prints."""
    words = [other, "solve", "--budget", str(budget or 10**15)]
    start = time.perf_counter()
    subprocess.run(words, input=("\n".join(lines) + "\n").encode(), capture_output=True)
    return time.perf_counter() - start


def matrices(race, maker, other):
    print(f"{'problem':44} {'rows':>5} {'columns':>7} {'solutions':>9} {'nodes':>10} {'seconds':>8} {'ns/node':>8} {'beside':>8}")
    for lines, budget in MATRICES:
        rows, columns, numbers = system_of(maker, lines)
        words = [race] + ([str(budget)] if budget else [])
        runs = [subprocess.run(words, input=numbers.encode(), check=True, capture_output=True).stdout.split() for _ in range(3)]
        solutions, nodes = int(runs[0][5]), int(runs[0][7])
        taken = min(int(run[9]) for run in runs) / 1e6
        name = " / ".join(lines)
        also = f"{min(beside(other, lines, budget) for _ in range(3)):>8.3f}" if other else f"{'':>8}"
        print(f"{name:44} {rows:5} {columns:7} {solutions:9} {nodes:10} {taken:8.3f} {taken / max(nodes, 1) * 1e9:8.2f} {also}", flush=True)


def great_system(rows, columns, cells, low, high, target):
    """A system as numbers, that looks random."""
    draw = random.Random(rows * columns + cells)
    sums, lines = [0] * rows, []
    for _ in range(columns):
        entries = [0] * rows
        places = range(rows) if cells == rows else draw.sample(range(rows), cells)
        for place, entry in zip(places, draw.choices(range(low, high + 1), k=cells)):
            entries[place] = entry
            sums[place] += entry
        lines.append(" ".join(map(str, entries)))
    targets = [str(target or total // 2) for total in sums]
    return " ".join([str(rows), *targets, *lines]) + "\n"


def greatest(race):
    print(f"{'rows':>5} {'columns':>7} {'cells':>8} {'system s':>8} {'ns/cell':>7} {'search s':>8} {'ns/cell':>7} {'nodes':>8} {'walk s':>8} {'ns/node':>8}")
    for rows, columns, width, low, high, target in GREATEST:
        width = min(width, rows)
        numbers = great_system(rows, columns, width, low, high, target)
        runs = [subprocess.run([race, str(BUDGET)], input=numbers.encode(), check=True, capture_output=True).stdout.split() for _ in range(3)]
        nodes = int(runs[0][7])
        making, system = (min(int(run[place]) for run in runs) / 1e6 for place in (11, 13))
        walk = max(0, min(int(run[9]) - int(run[11]) for run in runs)) / 1e6
        cells = columns * width
        print(f"{rows:5} {columns:7} {cells:8} {system:8.3f} {system / cells * 1e9:7.1f} {making:8.3f} {making / cells * 1e9:7.1f} {nodes:8} {walk:8.3f} {walk / max(nodes, 1) * 1e9:8.1f}", flush=True)


def main():
    parser = argparse.ArgumentParser()
    for word in ("program", "race", "maker", "beside"):
        parser.add_argument(f"--{word}", type=pathlib.Path)
    parser.add_argument("table", nargs="?", choices=("random", "matrices", "greatest"))
    given = parser.parse_args()
    with tempfile.TemporaryDirectory() as name:
        folder = pathlib.Path(name)
        if given.table in (None, "random"):
            program = given.program or crates.build(folder / "random", "searches", CRATES, PROGRAM, PROOFS, ["0"])
            table(program.resolve(), crates.build_loop(folder, "walk", LOOPS))
        if given.table == "random":
            return
        race = (given.race or crates.build(folder / "race", "race", ["df_io", *CRATES], RACE, RACE_PROOFS, ["0"])).resolve()
        if given.table in (None, "matrices"):
            maker = given.maker or crates.TOP / "crates/df_main/out/df_main"
            matrices(race, maker.resolve(), given.beside and given.beside.resolve())
        if given.table in (None, "greatest"):
            greatest(race)


if __name__ == "__main__":
    main()
