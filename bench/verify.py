#!/usr/bin/env python3
"""Runs `verify` and `table` of the built program on growing families, and prints a table of seconds.

verify.py [PROGRAM]    PROGRAM is crates/df_main/out/df_main where it isn't given

The families have blocks of 16 points. Over the group of order 127 they are the multiples of some blocks by 1 to 63,
which cover each difference equally often. The last one is over the group of order 128: 127 blocks are chosen so that
their differences of each even part are as many as there are such differences, times 240, and are multiplied by the
odd numbers below 64. A source whose name ends in `refused` asks for one more block a pair: its text is one line.
Each family is verified once with its blocks as `base` and once as `short`: no translation fixes one of them, so both
develop into the same blocks, but of a short one the program has to find that no translate comes twice.
"""
import pathlib, random, subprocess, sys, time


def multiples(v, blocks, units):
    return [sorted(u * p % v for p in block) for block in blocks for u in units]


def prime_family(count, seed):
    rng = random.Random(seed)
    blocks = [rng.sample(range(127), 16) for _ in range(count)]
    return 127, 120 * count, multiples(127, blocks, range(1, 64))


def part(d):
    """The exponent of 2 in a difference."""
    return (d & -d).bit_length() - 1


def parts(block):
    counts = [0] * 7
    for a in block:
        for b in block:
            if a != b:
                counts[part((a - b) % 128)] += 1
    return counts


def even_family(seed):
    """Changes points one by one until the counts of all 127 blocks are those of all differences, times 240."""
    rng = random.Random(seed)
    wanted = [240 * (64 >> j) for j in range(7)]
    blocks = [rng.sample(range(128), 16) for _ in range(127)]
    counts = [parts(block) for block in blocks]
    total = [sum(c[j] for c in counts) for j in range(7)]
    far = lambda t: sum(abs(a - b) for a, b in zip(t, wanted))
    while far(total):
        i, place, point = rng.randrange(127), rng.randrange(16), rng.randrange(128)
        if point in blocks[i]:
            continue
        block = blocks[i][:place] + [point] + blocks[i][place + 1:]
        new = parts(block)
        moved = [t - a + b for t, a, b in zip(total, counts[i], new)]
        if far(moved) <= far(total):
            blocks[i], counts[i], total = block, new, moved
    return 128, 32 * 240, multiples(128, blocks, range(1, 64, 2))


def source(v, target, blocks, kind):
    lines = [f"group {v}", "k 16", f"lambda {target}"] + [kind + " " + " ".join(map(str, b)) for b in blocks]
    return ("\n".join(lines) + "\n").encode()


def timed(program, word, text):
    start = time.perf_counter()
    run = subprocess.run([program, word], input=text, stdout=subprocess.PIPE)
    return time.perf_counter() - start, run


def main():
    top = pathlib.Path(__file__).resolve().parent.parent
    program = sys.argv[1] if len(sys.argv) > 1 else str(top / "crates/df_main/out/df_main")
    families = [(f"order 127, {63 * n} blocks", prime_family(n, n)) for n in (1, 4, 16, 64)]
    families.append(("order 128, 4064 blocks", even_family(7)))
    v, target, blocks = families[-1][1]
    families.append(("the same, refused", (v, target + 1, blocks)))
    print(f"{'family':26} {'printed':>8} {'bytes':>10} {'base':>7} {'ns/block':>9} {'short':>7} {'ns/block':>9} {'table':>7}")
    for name, (v, target, blocks) in families:
        base, run = timed(program, "verify", source(v, target, blocks, "base"))
        short, again = timed(program, "verify", source(v, target, blocks, "short"))
        table, rows = timed(program, "table", source(v, target, blocks, "base"))
        printed = run.stdout.count(b"\nblock ")
        wanted = (0, v * len(blocks)) if not name.endswith("refused") else (1, 0)
        if (run.returncode, printed) != wanted or again.stdout != run.stdout or rows.stdout.count(b"\n") != v - 1:
            sys.exit(f"{name}: status {run.returncode} and {printed} blocks, not {wanted}")
        each = lambda seconds: f"{seconds * 1e9 / printed:9.0f}" if printed else f"{'':9}"
        print(f"{name:26} {printed:8} {len(run.stdout):10} {base:7.3f} {each(base)} {short:7.3f} {each(short)} {table:7.3f}")


if __name__ == "__main__":
    main()
