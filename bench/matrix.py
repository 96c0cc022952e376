#!/usr/bin/env python3
"""Times the orbit matrices of the largest problems within the limits, by the built program, and prints a table.

matrix.py [PROGRAM]    PROGRAM is crates/df_main/out/df_main where it isn't given

The text is counted as it comes and isn't kept. The numbers of rows and of orbits are compared with those that Burnside's lemma
gives; each line of an orbit must have come. The memory is the most that the program held at any time.
"""
import math, os, pathlib, subprocess, sys, time

# version, order of the cyclic group, whether all translations are maps, sizes, target
PROBLEMS = [
    (1, 46, False, [3], 1),
    (1, 23, True, [10], 45),
    (1, 84, True, [4], 12),
    (2, 24, True, [16], 200),
    (2, 63, True, [4, 5], 1),
    (2, 60, False, [3], 1),
    (2, 74, False, [3], 1),
]


def source(version, order, shifted, sizes, target):
    head = ["version 2"] if version == 2 else []
    lines = [f"group {order}", *([] if shifted else ["shift none"]), "k " + " ".join(map(str, sizes)), f"lambda {target}"]
    return head + lines


def classes(order, size, shifted):
    """How many classes of blocks of the size there are: by all translations, or by none."""
    if not shifted:
        return math.comb(order, size)
    moved = sum(math.comb(math.gcd(order, h), size * math.gcd(order, h) // order) for h in range(order) if size * math.gcd(order, h) % order == 0)
    return moved // order


def run(program, text):
    """The first line, how many lines and bytes there are, and the seconds and bytes of memory that the program took."""
    start = time.perf_counter()
    child = subprocess.Popen([program, "matrix"], stdin=subprocess.PIPE, stdout=subprocess.PIPE)
    child.stdin.write(text)
    child.stdin.close()
    first, lines, size = b"", 0, 0
    while piece := child.stdout.read(1 << 20):
        if b"\n" not in first:
            first += piece
        lines += piece.count(b"\n")
        size += len(piece)
    _, status, usage = os.wait4(child.pid, 0)
    seconds = time.perf_counter() - start
    child.returncode = os.waitstatus_to_exitcode(status)
    return child.returncode, first.split(b"\n")[0].decode(), lines, size, seconds, usage.ru_maxrss * 1024


def main():
    top = pathlib.Path(__file__).resolve().parent.parent
    program = sys.argv[1] if len(sys.argv) > 1 else str(top / "crates/df_main/out/df_main")
    print(f"{'problem':46} {'rows':>5} {'orbits':>7} {'kept':>6} {'bytes':>10} {'seconds':>8} {'ns/entry':>8} {'memory':>10}")
    for problem in PROBLEMS:
        version, order, shifted, sizes, target = problem
        lines = source(*problem)
        status, first, count, size, seconds, memory = run(program, ("\n".join(lines) + "\n").encode())
        words = first.split()
        rows, orbits = classes(order, 2, shifted), sum(classes(order, k, shifted) for k in sizes)
        if status != 0 or words[:4] != ["rows", str(rows), "orbits", str(orbits)] or count != 1 + rows + orbits:
            sys.exit(f"{lines}: status {status}, {count} lines, {first}")
        print(f"{' / '.join(lines):46} {rows:5} {orbits:7} {words[5]:>6} {size:10} {seconds:8.3f} {seconds * 1e9 / (rows * orbits):8.0f} {memory:10}")


if __name__ == "__main__":
    main()
