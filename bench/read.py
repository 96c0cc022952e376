#!/usr/bin/env python3
"""Times the reading of large sources by the built program, and prints a table.

read.py [PROGRAM]    PROGRAM is crates/df_main/out/df_main where it isn't given

Each source has 4,096 base blocks of 16 points over the group of order 128 and as many named subgroups as fit the number of
bytes. `verify` reads it and refuses the family with one line. In the last source each subgroup has a generator, and the
time is that of generating so many subgroups of up to 128 elements.
"""
import pathlib, random, subprocess, sys, time


def source(size, generators):
    rng = random.Random(size)
    blocks = ["base " + " ".join(map(str, rng.sample(range(128), 16))) for _ in range(4096)]
    head = ["group 128", "k 16", "lambda 1"]
    room = size - sum(len(line) + 1 for line in head + blocks)
    names = []
    while room > 0:
        line = f"subgroup n{len(names)}" + "".join(f" {rng.randrange(128)}" for _ in range(generators))
        room -= len(line) + 1
        if room >= 0:
            names.append(line)
    return len(names), ("\n".join(head + names + blocks) + "\n").encode()


def main():
    top = pathlib.Path(__file__).resolve().parent.parent
    program = sys.argv[1] if len(sys.argv) > 1 else str(top / "crates/df_main/out/df_main")
    print(f"{'bytes':>9} {'names':>7} {'generators':>10} {'seconds':>8} {'ns/byte':>8}")
    for size, generators in ((1 << 18, 0), (1 << 19, 0), (1 << 20, 0), (1 << 20, 1)):
        names, text = source(size, generators)
        start = time.perf_counter()
        run = subprocess.run([program, "verify"], input=text, stdout=subprocess.PIPE)
        seconds = time.perf_counter() - start
        if run.returncode != 1:
            sys.exit(f"status {run.returncode}: {run.stdout[:80]!r}")
        print(f"{len(text):9} {names:7} {generators:10} {seconds:8.3f} {seconds * 1e9 / len(text):8.0f}")


main()
