#!/usr/bin/env python3
"""Measures `solve` over cyclic triple systems, and prints a table: seconds, nodes and lines a second, and the ratio to another program.

solve.py [PROGRAM] [--beside OTHER]    PROGRAM is crates/df_main/out/df_main where it isn't given

Each search runs as far as a budget of nodes goes: without a log, and with one that is written to /dev/null. The seconds are
those of the processor, the least of three runs; a program that runs beside takes turns with it.
"""
import os, pathlib, resource, subprocess, sys

BUDGET = 20_000_000
POINTS = (13, 15, 19, 21, 25, 27, 31, 33, 37, 39, 43)


def seconds(program, words, source):
    """The processor's seconds of a run, whose text is thrown away."""
    before = resource.getrusage(resource.RUSAGE_CHILDREN)
    subprocess.run([program, *words], input=source, stdout=subprocess.DEVNULL)
    after = resource.getrusage(resource.RUSAGE_CHILDREN)
    return after.ru_utime + after.ru_stime - before.ru_utime - before.ru_stime


def end_of(program, source):
    """The numbers of designs and nodes, and whether the search ended; the number of lines with a log."""
    words = ["solve", "--budget", str(BUDGET), "--log"]
    run = subprocess.Popen([program, *words], stdin=subprocess.PIPE, stdout=subprocess.PIPE)
    run.stdin.write(source)
    run.stdin.close()
    lines, last, tail = 0, b"", b""
    while piece := run.stdout.read(1 << 20):
        lines += piece.count(b"\n")
        tail = (tail + piece)[-4096:]
    run.wait()
    last = tail.rstrip(b"\n").split(b"\n")[-1].split()
    return last[1].decode(), int(last[3]), int(last[5]), lines


def main():
    words = sys.argv[1:]
    other = None
    if "--beside" in words:
        place = words.index("--beside")
        other = words[place + 1]
        words = words[:place] + words[place + 2:]
    here = pathlib.Path(__file__).resolve().parent.parent
    program = words[0] if words else str(here / "crates/df_main/out/df_main")
    print("points      end  designs     nodes  silent   nodes/s" + "   ratio" * bool(other) + "     log   lines/s" + "   ratio" * bool(other))
    for points in POINTS:
        source = f"group {points}\nk 3\nlambda 1\n".encode()
        end, designs, nodes, lines = end_of(program, source)
        row = f"{points:6} {end:>8} {designs:8} {nodes:9}"
        for log, count in (([], nodes), (["--log"], lines)):
            command = ["solve", "--budget", str(BUDGET), *log]
            own, its = [], []
            for _ in range(3):
                own.append(seconds(program, command, source))
                if other:
                    its.append(seconds(other, command, source))
            least = max(min(own), 0.001)
            row += f" {least:7.3f} {count / least:9.0f}"
            if other:
                row += f" {least / max(min(its), 0.001):7.2f}"
        print(row, flush=True)


main()
