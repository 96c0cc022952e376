#!/usr/bin/env python3
"""Runs commands as processes whose memory is bounded, step by step, and prints a table of how they end.

memory.py [PROGRAM] [--steps N]    PROGRAM is crates/df_main/out/df_main where it isn't given

Each row is a command and an input. The program is run with N bounds, 160 where it isn't stated, on its address space (RLIMIT_AS) and then
on its data alone (RLIMIT_DATA), from what it takes to begin up to beyond what it needs for the whole answer. Each run has to end with
the whole answer and its status, or with status 6 and nothing written. Where the bounds begin is found with a word that is no command:
below that the loader ends the process before the program does anything. The table has for each row the bytes of its input and
answer, the least bound with the whole answer, and how many runs were refused, answered, or ended otherwise; the status is 1 where one
ended otherwise, or where no run of a row was refused under either bound.
"""
import pathlib, resource, subprocess, sys

PAGE = resource.getpagesize()
STEPS = 160
OUT_OF_MEMORY = 6
KINDS = (("space", resource.RLIMIT_AS), ("data", resource.RLIMIT_DATA))
MOST = 1 << 31


def source(text):
    return (text.replace(" / ", "\n") + "\n").encode()


def bounded(program, words, data, kind, most):
    """The status and the text of a run whose memory of a kind has at most so many bytes."""
    bound = lambda: resource.setrlimit(kind, (most, most))
    done = subprocess.run([program, *words.split()], input=data, stdout=subprocess.PIPE, stderr=subprocess.PIPE, preexec_fn=bound)
    return done.returncode, done.stdout


def whole(program, words, data):
    done = subprocess.run([program, *words.split()], input=data, stdout=subprocess.PIPE)
    return done.returncode, done.stdout


def rows(program):
    """The words and the input of each row."""
    plane, blocks, triples = "group 7 / k 3 / lambda 1", "group 31 / k 4 / lambda 1", "group 65 / k 3 / lambda 63"
    text = lambda words, problem: whole(program, words, source(problem))[1]
    yield "verify", source(plane + " / base 0 1 3")
    yield "verify", source("group 128 / k 3 / lambda 1" + " / base 0 1 3" * 4096)
    yield "table", source("group 127 / fixed 1 / k 3 / lambda 1 / base 0 1 3")
    yield "show", source("group 128 / k 3 / lambda 1" + "".join(f" / subgroup n{n} {n % 128}" for n in range(3000)))
    yield "orbits", source(plane)
    yield "orbits", source("group 61 / k 4 / lambda 1")
    yield "matrix", source(plane)
    yield "matrix", source(blocks)
    yield "solve", source(plane)
    yield "solve --log --budget 1000", source(blocks)
    yield "solve --json", source(plane)
    yield "solve --json --blocks", source("group 19 / k 3 / lambda 1")
    yield "resume --log", text("solve --log --budget 2", plane)
    yield "resume --blocks", text("solve --log --budget 2", triples)
    yield "check", text("solve --log", plane)
    yield "check", text("solve --log", triples)
    yield "check", text("solve --log", "group 19 / k 3 / lambda 1")
    yield "workload 1", b""
    yield "workload 10", b""


def least(holds, low, high):
    """The least multiple of a page in bounds that holds, where a larger one holds too as a rule."""
    low, high = low // PAGE, high // PAGE
    while low < high:
        middle = (low + high) // 2
        if holds(middle * PAGE):
            high = middle
        else:
            low = middle + 1
    return low * PAGE


def bounds_of(floor, enough, steps):
    """Bounds from the floor to beyond what is enough, and each page near that."""
    width = enough - floor
    evenly = {floor + width * step // steps // PAGE * PAGE for step in range(steps + steps // 8)}
    return sorted(evenly | {most for most in range(enough - 24 * PAGE, enough + 9 * PAGE, PAGE) if most >= floor})


def row(program, words, data, name, kind, floor, steps):
    """Runs one row under bounds of one kind. Gives how many runs were refused, and how many ended in neither way that may be."""
    wanted = whole(program, words, data)
    enough = least(lambda most: bounded(program, words, data, kind, most) == wanted, floor, MOST)
    refused, answered, wrong = 0, 0, 0
    for most in bounds_of(floor, enough, steps):
        got = bounded(program, words, data, kind, most)
        refused += got == (OUT_OF_MEMORY, b"")
        answered += got == wanted
        if got not in (wanted, (OUT_OF_MEMORY, b"")):
            wrong += 1
            print(f"{words}: {most} bytes of {name}: status {got[0]}, {len(got[1])} bytes written: {got[1][:60]!r}")
    sizes = f"{len(data):9} {len(wanted[1]):9} {wanted[0]:6} {name:6} {enough:11}"
    print(f"{words:26} {sizes} {refused:8} {answered:8} {wrong:6}", flush=True)
    return refused, wrong


def main():
    words, steps = sys.argv[1:], STEPS
    if "--steps" in words:
        place = words.index("--steps")
        steps = int(words[place + 1])
        words = words[:place] + words[place + 2:]
    top = pathlib.Path(__file__).resolve().parent.parent
    program = words[0] if words else str(top / "crates/df_main/out/df_main")
    begun = (whole(program, "none", b""), (OUT_OF_MEMORY, b""))
    floors = {name: least(lambda most: bounded(program, "none", b"", kind, most) in begun, 0, MOST) for name, kind in KINDS}
    for name, floor in floors.items():
        print(f"the program begins with {floor} bytes of {name}")
    print(f"{'command':26} {'input':>9} {'answer':>9} {'status':>6} {'bound':6} {'enough':>11} {'refused':>8} {'answered':>8} {'other':>6}")
    failed = False
    for line, data in rows(program):
        ends = [row(program, line, data, name, kind, floors[name], steps) for name, kind in KINDS]
        failed = failed or any(wrong for _, wrong in ends) or not any(refused for refused, _ in ends)
    sys.exit(1 if failed else 0)


if __name__ == "__main__":
    main()
