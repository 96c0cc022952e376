#!/usr/bin/env python3
"""Counts the system calls that programs write with, and times them, and prints a table.

writes.py [PROGRAM ..]    PROGRAM is crates/df_main/out/df_main where none is given; the rows of several stand together

A program writes to a pipe whose other end is read and counted. Its number of write calls is that which the system keeps of
the process (syscw of /proc/PID/io), so nothing slows it down.
"""
import os, pathlib, subprocess, sys, tempfile, time

import verify


def cyclic(order, *lines):
    return "\n".join([f"group {order}", *lines]) + "\n"


def cases():
    """A name, a command and a source for each row, the quickest first."""
    family = verify.source(*verify.prime_family(64, 64), "base").decode()
    return [
        ("order 127, 4032 blocks", "show", family),
        ("order 127, 4032 blocks", "table", family),
        ("order 127, 4032 blocks", "verify", family),
        ("group 25, k 8", "orbits", cyclic(25, "k 8", "lambda 7")),
        ("group 46, shift none, k 3", "matrix", cyclic(46, "shift none", "k 3", "lambda 1")),
        ("version 2, group 60, shift none, k 3", "matrix", "version 2\n" + cyclic(60, "shift none", "k 3", "lambda 1")),
    ]


def run(program, command, source):
    """The seconds, the bytes printed, the write calls and the status of one run."""
    with tempfile.TemporaryFile() as input:
        input.write(source.encode())
        input.seek(0)
        start = time.perf_counter()
        child = subprocess.Popen([program, command], stdin=input, stdout=subprocess.PIPE)
    printed = 0
    while piece := os.read(child.stdout.fileno(), 1 << 20):
        printed += len(piece)
    os.waitid(os.P_PID, child.pid, os.WEXITED | os.WNOWAIT)
    seconds = time.perf_counter() - start
    counts = dict(line.split(": ") for line in pathlib.Path(f"/proc/{child.pid}/io").read_text().splitlines())
    return seconds, printed, int(counts["syscw"]), child.wait()


def main():
    top = pathlib.Path(__file__).resolve().parent.parent
    programs = sys.argv[1:] or [str(top / "crates/df_main/out/df_main")]
    print(f"{'problem':38} {'command':8} {'bytes':>12} {'calls':>12} {'seconds':>9}")
    for name, command, source in cases():
        sizes = set()
        for program in programs:
            seconds, printed, calls, status = run(program, command, source)
            sizes.add((printed, status))
            print(f"{name:38} {command:8} {printed:12,} {calls:12,} {seconds:9.2f}", flush=True)
        if len(sizes) > 1:
            sys.exit(f"{name}: the programs don't answer alike")


if __name__ == "__main__":
    main()
