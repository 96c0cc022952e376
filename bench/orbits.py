#!/usr/bin/env python3
"""Measures how long it takes to list the orbits of the blocks of a size, and prints a table of nanoseconds for each block.

orbits.py [PROGRAM]    PROGRAM is built by the command rt in a folder of its own where it isn't given

The maps are the translations of the whole group, with the products of one multiplier. Each number of orbits is compared
with the one that Burnside's lemma gives: the mean number of blocks of the size that a map moves into themselves, which
is counted from the lengths of the map's cycles. The last problem but one has two maps alone, and the last one as many as
there can be, and few blocks.
"""
import itertools, math, pathlib, subprocess, sys, tempfile, time

import crates

CRATES = ["df_group", "df_subsets", "df_maps", "df_orbits"]

# size, multiplier, fixed points, factors
PROBLEMS = [(8, 1, 0, [25]), (4, 1, 0, [64]), (4, 1, 0, [8, 8]), (4, 63, 0, [64]), (10, 1, 0, [21]), (4, 1, 62, [2]), (3, 3, 0, [127])]

PROGRAM = '''//! Lists the orbits of blocks of elements and fixed points under the translations of a group and one multiplier:
//! orbits SIZE MULTIPLIER FIXED FACTOR [FACTOR].
//! Prints the number of orbits and of blocks.
#![tactic(auto)]

ghost use Rattle.std.specs.Prelude.{◌<◌};
ghost use Rattle.df_group.specs.Subgroups.{IsSubgroup};

use df_group::{Elem, Shape, Subgroup};
use df_maps::Maps;
use df_orbits::subset_orbits;
use std::alloc::Global;
use std::env;
use std::process::Abort;

// All elements of a group with one factor, or with two of which this is the last.
fn whole(shape: &Shape, last: u16) -> Subgroup
    ensures { IsSubgroup shape.now result }
{
    if last < u16::from(shape.order()) {
        return Subgroup::generate(shape, &[Elem(1), Elem(last as u8)]);
    }
    Subgroup::generate(shape, &[Elem(1)])
}

fn list(rt: &impl Abort, alloc: Global, maps: &Maps, size: u8) -> (usize, u64) {
    if size < 2 || size > maps.points() {
        return (0, 0);
    }
    let orbits = subset_orbits(alloc, maps, size).expect(rt, "few blocks and memory");
    let mut blocks: u64 = 0;
    for i in 0..orbits.len() {
        blocks = blocks.wrapping_add(u64::from(orbits.size(i)));
    }
    (orbits.len(), blocks)
}

fn main(rt: HostRuntime) {
    let alloc = rt.alloc();
    let mut numbers = Vec::new(alloc);
    for word in env::args(&rt).expect(&rt, "words").skip(1) {
        numbers.push(word.parse::<u16>().unwrap_or(0)).expect(&rt, "memory");
    }
    let (size, mult, fixed, last) = match numbers.as_slice() {
        [size, mult, fixed, factor] => (*size, *mult, *fixed, *factor),
        [size, mult, fixed, _, factor] => (*size, *mult, *fixed, *factor),
        _ => return,
    };
    let Ok(shape) = Shape::new(&numbers[3..]) else {
        return;
    };
    if size > 128 || fixed > 126 || u16::from(shape.order()) + fixed > 128 || !shape.is_unit(u32::from(mult)) {
        return;
    }
    let maps = Maps::new(&shape, fixed as u8, &whole(&shape, last), &[mult]);
    let (count, blocks) = list(&rt, alloc, &maps, size as u8);
    println!(rt; "{count} {blocks}").expect(&rt, "output");
}
'''

def build(folder):
    return crates.build(folder, "orbits", CRATES, PROGRAM, {}, [])


def all_maps(mult, fixed, factors):
    """The lists of the images of all elements and fixed points."""
    exponent = math.lcm(*factors)
    products = {1}
    while (more := products | {m * mult % exponent for m in products}) != products:
        products = more
    elements = list(itertools.product(*map(range, factors)))
    number = {e: i for i, e in enumerate(elements)}
    for m in products:
        for h in elements:
            yield [number[tuple((m * a + b) % f for a, b, f in zip(e, h, factors))] for e in elements] + list(range(len(elements), len(elements) + fixed))


def unmoved(images, size):
    """How many blocks of the size a map moves into themselves: unions of its cycles."""
    ways = [1] + [0] * size
    seen = [False] * len(images)
    for start in range(len(images)):
        length = 0
        while not seen[start]:
            seen[start] = True
            start = images[start]
            length += 1
        if length:
            for n in range(size, length - 1, -1):
                ways[n] += ways[n - length]
    return ways[size]


def seconds(program, words, wanted):
    start = time.perf_counter()
    run = subprocess.run([program, *map(str, words)], stdout=subprocess.PIPE, text=True, check=True)
    taken = time.perf_counter() - start
    if run.stdout.split() != [str(n) for n in wanted]:
        sys.exit(f"orbits {words}: {run.stdout.strip()} in place of {wanted}")
    return taken


def table(program):
    print(f"{'group':>6} {'fixed':>5} {'mult':>5} {'k':>3} {'maps':>6} {'blocks':>8} {'orbits':>8} {'seconds':>8} {'ns/block':>9}")
    for size, mult, fixed, factors in PROBLEMS:
        blocks = math.comb(math.prod(factors) + fixed, size)
        counts = [unmoved(images, size) for images in all_maps(mult, fixed, factors)]
        orbits = sum(counts) // len(counts)
        taken = min(seconds(program, [size, mult, fixed, *factors], (orbits, blocks)) for _ in range(5))
        group = " ".join(map(str, factors))
        print(f"{group:>6} {fixed:>5} {mult:>5} {size:>3} {len(counts):>6} {blocks:>8} {orbits:>8} {taken:>8.3f} {taken / blocks * 1e9:>9.1f}")


def main():
    if len(sys.argv) > 1:
        table(pathlib.Path(sys.argv[1]).resolve())
        return
    with tempfile.TemporaryDirectory() as folder:
        table(build(pathlib.Path(folder)))


if __name__ == "__main__":
    main()
