#!/usr/bin/env python3
"""Measures how long the lines of a log take to be read, and prints a table of nanoseconds a line.

lines.py [--program PROGRAM] [--lines LINES]

LINES is 10,000,000 where it isn't given. The lines look like those of a log, of 8 to 30 bytes with their line feeds: half of
them branches, and over, under, settled, residues and short cuts. They stand in a file, which is standard input.

PROGRAM is built by the command rt in a folder of its own where it isn't given. By its word `lines` it reads the lines alone,
and by `entries` each of them as an entry too, by the divisor's rules; it times itself. Beside it a plain loop in C, with getline
and its own reading of an entry, does the same work, where gcc is there. Each time is the least of three runs. The memory is
the most that a process held, looked up each hundredth of a second.
"""
import argparse, pathlib, random, subprocess, sys, tempfile, time

import crates

PROGRAM = '''//! Reads the lines of standard input, with the word `entries` each of them as an entry too, and prints how many lines there were, how many of them
//! were entries, and how many microseconds that took.
#![tactic(auto)]

use df_dossier::{Rules, read_entry};
use df_io::{LineSource, MOST_BYTES, Source, StdSource};
use std::alloc::Global;
use std::env;
use std::io;
use std::rt::Env;
use std::time::Instant;

// The lines alone.
fn lines_of<S: Source>(lines: &mut LineSource<'_, S>) -> Option<u64> {
    let mut number: u64 = 0;
    for _ in 0..MOST_BYTES {
        match lines.next_line() {
            Ok(true) => number = number.wrapping_add(1),
            Ok(false) => return Some(number),
            Err(_) => return None,
        }
    }
    None
}

// The entries among the lines.
fn entries_of<S: Source>(lines: &mut LineSource<'_, S>) -> Option<u64> {
    let mut number: u64 = 0;
    for _ in 0..MOST_BYTES {
        match lines.next_line() {
            Ok(true) => {
                if read_entry(lines.line(), Rules::Divisor).is_some() {
                    number = number.wrapping_add(1);
                }
            }
            Ok(false) => return Some(number),
            Err(_) => return None,
        }
    }
    None
}

fn are_wanted(rt: &(impl Env + AllocGlobal)) -> bool {
    let Ok(mut words) = env::args(rt) else {
        return false;
    };
    match words.nth(1) {
        Some(word) => word.as_str() == "entries",
        None => false,
    }
}

fn number_of<S: Source>(alloc: Global, input: &mut S, entries: bool) -> Option<u64> {
    let mut lines = LineSource::new(alloc, input, MOST_BYTES).ok()?;
    if entries {
        entries_of(&mut lines)
    } else {
        lines_of(&mut lines)
    }
}

fn main(rt: HostRuntime) -> io::Result<()> {
    let entries = are_wanted(&rt);
    let mut input = StdSource::new(rt.reader());
    let before = Instant::now(&rt)?;
    let number = number_of(rt.alloc(), &mut input, entries);
    let took = before.elapsed(&rt)?;
    match number {
        Some(number) => println!(rt; "{number} {}", took.as_micros())?,
        None => println!(rt; "no lines")?,
    }
    Ok(())
}
'''

LOOP = r'''// Reads the lines of standard input, with the word `entries` each of them as an entry too.
#define _GNU_SOURCE
#include <stdint.h>
#include <stdio.h>
#include <stdlib.h>
#include <string.h>
#include <time.h>

struct entry {
    int word, rows;
    uint32_t first, second;
    struct { int weight; uint32_t row; } cut[16];
};

static const char *at, *end;

static int token(const char **from, size_t *size) {
    while (at < end && (*at == ' ' || *at == '\t' || *at == '\r')) at++;
    if (at == end || *at == '#') return 0;
    *from = at;
    while (at < end && *at != ' ' && *at != '\t' && *at != '\r' && *at != '#') at++;
    *size = at - *from;
    return 1;
}

static int value(const char *from, size_t size, uint64_t least, uint64_t most, uint64_t *number) {
    uint64_t n = 0;
    if (size == 0) return 0;
    for (size_t i = 0; i < size; i++) {
        if (from[i] < '0' || from[i] > '9') return 0;
        n = n * 10 + (from[i] - '0');
        if (n > 4294967295u) return 0;
    }
    *number = n;
    return least <= n && n <= most;
}

static int is(const char *from, size_t size, const char *word) {
    return size == strlen(word) && memcmp(from, word, size) == 0;
}

static int number(uint64_t least, uint32_t *n) {
    const char *from;
    size_t size;
    uint64_t read;
    if (!token(&from, &size) || !value(from, size, least, 4294967295u, &read)) return 0;
    *n = read;
    return 1;
}

static int read_entry(struct entry *e) {
    const char *from;
    size_t size;
    uint64_t n;
    if (!token(&from, &size)) return 0;
    if (is(from, size, "branch")) e->word = 0;
    else if (is(from, size, "over")) e->word = 1;
    else if (is(from, size, "under")) e->word = 2;
    else if (is(from, size, "settled")) e->word = 3;
    else if (is(from, size, "residue")) e->word = 4;
    else if (is(from, size, "cut")) e->word = 5;
    else return 0;
    if (e->word < 3 && !number(0, &e->first)) return 0;
    if (e->word == 4 && !(number(0, &e->first) && number(2, &e->second))) return 0;
    if (e->word == 5) {
        e->rows = 0;
        while (token(&from, &size)) {
            int below = *from == '-';
            if (!value(from + below, size - below, 1, 1000, &n) || e->rows == 16) return 0;
            e->cut[e->rows].weight = below ? -(int)n : (int)n;
            if (!number(0, &e->cut[e->rows].row)) return 0;
            if (e->rows && e->cut[e->rows - 1].row >= e->cut[e->rows].row) return 0;
            e->rows++;
        }
        return e->rows > 0;
    }
    return !token(&from, &size);
}

int main(int argc, char **argv) {
    int entries = argc > 1 && strcmp(argv[1], "entries") == 0;
    char *line = NULL;
    size_t room = 0;
    ssize_t size;
    uint64_t count = 0;
    struct timespec before, after;
    clock_gettime(CLOCK_MONOTONIC, &before);
    while ((size = getline(&line, &room, stdin)) >= 0) {
        struct entry e;
        if (size && line[size - 1] == '\n') size--;
        at = line, end = line + size;
        if (!entries) count++;
        else if (read_entry(&e)) count++;
    }
    clock_gettime(CLOCK_MONOTONIC, &after);
    printf("%lu %ld\n", count, (after.tv_sec - before.tv_sec) * 1000000 + (after.tv_nsec - before.tv_nsec) / 1000);
    return 0;
}
'''

BLOCK = 100000


def log_line(rng):
    """A line of 8 to 30 bytes with its line feed."""
    number = lambda: str(rng.randrange(10 ** rng.randrange(1, 6)))
    kind = rng.randrange(12)
    if kind < 6:
        return "branch " + number()
    if kind < 8:
        return "under 0" + number()
    if kind == 8:
        return "over 00" + number()
    if kind == 9:
        return "settled"
    if kind == 10:
        return "residue " + number() + " " + str(rng.randrange(2, 10))
    rows = sorted(rng.sample(range(1000), 3))
    return "cut" + "".join(f" {rng.choice(('', '-'))}{rng.randrange(1, 100)} {row}" for row in rows)


def write_lines(path, lines):
    rng = random.Random(1)
    block = [log_line(rng) for _ in range(min(BLOCK, lines))]
    sizes = [len(line) + 1 for line in block]
    assert min(sizes) >= 8 and max(sizes) <= 30
    text = ("\n".join(block) + "\n").encode()
    with open(path, "wb") as out:
        for _ in range(lines // len(block)):
            out.write(text)
    return lines // len(block) * len(block)


def build(folder):
    return crates.build(folder, "lines", ["df_io", "df_dossier"], PROGRAM, {}, [])


def held_by(process):
    """The most bytes that a process has held so far, or 0 where it has ended."""
    try:
        for line in pathlib.Path(f"/proc/{process}/status").read_text().splitlines():
            if line.startswith("VmHWM:"):
                return int(line.split()[1]) * 1024
    except OSError:
        pass
    return 0


def run(program, word, path, lines):
    """The least seconds of three runs, and the most bytes held."""
    times, held = [], 0
    for _ in range(3):
        with open(path, "rb") as text:
            child = subprocess.Popen([program, word], stdin=text, stdout=subprocess.PIPE, text=True)
            while child.poll() is None:
                held = max(held, held_by(child.pid))
                time.sleep(0.01)
        out = child.stdout.read()
        number, micros = out.split()
        if child.returncode != 0 or int(number) != lines:
            sys.exit(f"{program} {word}: status {child.returncode}, {out!r}")
        times.append(int(micros) / 1e6)
    return min(times), held


def main():
    parser = argparse.ArgumentParser()
    parser.add_argument("--program")
    parser.add_argument("--lines", type=int, default=10000000)
    words = parser.parse_args()
    with tempfile.TemporaryDirectory() as name:
        folder = pathlib.Path(name)
        program = words.program or build(folder)
        loop = crates.build_loop(folder, "loop", LOOP)
        path = folder / "log"
        lines = write_lines(path, words.lines)
        print(f"{'':>8} {'':>7} {'lines':>9} {'bytes':>10} {'seconds':>8} {'ns/line':>8} {'memory':>9}")
        for word in ("lines", "entries"):
            for who, what in (("C", loop), ("program", program)):
                if what is not None:
                    seconds, held = run(what, word, path, lines)
                    size = path.stat().st_size
                    print(f"{word:>8} {who:>7} {lines:9} {size:10} {seconds:8.3f} {seconds * 1e9 / lines:8.1f} {held:9}", flush=True)


main()
