#!/usr/bin/env python3
"""Writes a log of a small source, unlike those of `solve`: columns in random order, cuts with weights, residues by any divisor.

write_log.py [SEED] < SOURCE        prints a dossier that is complete by judge.py

At each place all reasons against the decisions are looked for: each row that is over or under, each divisor up to a bound, and all
weights up to a bound on up to three rows. One of them is taken, mostly, and else an undecided column is decided, any one.
"""
import itertools, random, sys

import judge

MOST_DIVISOR = 9
WEIGHTS = (-3, -2, -1, 1, 2, 3)
MOST_CUTS = 400


def tokens_of(entry):
    flat = itertools.chain(*(x if isinstance(x, tuple) else (x,) for x in entry))
    return " ".join(map(str, flat))


def point_text(problem, p):
    every = judge.elements(problem.factors)
    return ",".join(map(str, every[p])) if p < len(every) else f"inf{p - len(every) + 1}"


def design_line(problem, matrix, yes):
    blocks = [" ".join(point_text(problem, p) for p in matrix.columns[c]) for c in sorted(yes)]
    return " ".join(["design", *" ; ".join(blocks).split()])


def reasons(matrix, decided, draw):
    """The entries that say of some decisions that no solution keeps them."""
    rows = range(len(matrix.targets))
    tried = [(word, row) for word in ("over", "under") for row in rows]
    tried += [("residue", row, m) for row in rows for m in range(2, MOST_DIVISOR + 1)]
    cuts = []
    for count in range(1, min(3, len(rows)) + 1):
        for chosen in itertools.combinations(rows, count):
            cuts += [("cut", *zip(weights, chosen)) for weights in itertools.product(WEIGHTS, repeat=count)]
    tried += draw.sample(cuts, min(len(cuts), MOST_CUTS))
    return [entry for entry in tried if judge.fault_of(matrix, decided, entry) is None]


def log(problem, matrix, decided, draw):
    """The lines of a log of some decisions."""
    met = judge.fault_of(matrix, decided, ("settled",)) is None
    free = judge.undecided(matrix, decided)
    if met and (not free or draw.random() < 0.8):
        return ["settled", design_line(problem, matrix, decided[0])]
    held = [] if met else reasons(matrix, decided, draw)
    if held and (not free or draw.random() < 0.9):
        kinds = sorted({entry[0] for entry in held})
        kind = draw.choice(kinds)
        return [tokens_of(draw.choice([entry for entry in held if entry[0] == kind]))]
    column = draw.choice(free)
    both = [log(problem, matrix, judge.with_column(decided, column, yes), draw) for yes in (True, False)]
    return [f"branch {column}", *both[0], *both[1]]


def dossier(source, body, start="0", end=None, head="dossier 2"):
    """The lines of a dossier: `end` is the path of a spent one."""
    last = "end finished designs 0 nodes 0" if end is None else f"end spent designs 0 nodes 0 next {end}"
    return [head, f"source {len(source)}", *source, f"from {start}", *body, last]


def text(lines):
    return ("\n".join(lines) + "\n").encode()


def main():
    draw = random.Random(int(sys.argv[1]) if len(sys.argv) > 1 else 1)
    data = sys.stdin.buffer.read()
    problem, matrix = judge.stated(tuple(judge.lines_of(data)))
    source = data.decode("latin-1").split("\n")
    source = source if source[-1] else source[:-1]
    sys.stdout.buffer.write("\n".join(dossier(source, log(problem, matrix, judge.NOTHING, draw))).encode("latin-1") + b"\n")


if __name__ == "__main__":
    main()
