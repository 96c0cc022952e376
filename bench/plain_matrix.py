"""Orbits and the orbit matrix, by the definitions alone: blocks that no map carries to an earlier one, and counts.

Part of plain.py.
"""
import collections, itertools, math

MOST_SUBSETS = 2000000
MOST_SUMMED = 8000000
MOST_COLUMNS = 65536
MOST_ENTRIES = 16777216


class Limit(Exception):
    """A problem is above a limit; the text says which."""


def maps_of(problem, steps):
    """The maps x -> mx + h, m a product of multipliers and h in the subgroup of `shift`: for each the list of images."""
    group = problem.group
    products, wider = set(), {1 % group.exponent}
    while wider != products:
        products = wider
        wider = products | {a * m % group.exponent for a in products for m in problem.multipliers}
    maps = []
    for m in sorted(products):
        for h in sorted(problem.shift):
            steps.take(problem.points)
            moved = [group.sum(group.times(m, x), h) for x in group.all]
            maps.append(moved + list(range(group.order, problem.points)))
    return maps


def image(one, block):
    return tuple(sorted(one[p] for p in block))


def orbits_of(blocks, maps, steps):
    """The blocks of a list that no map carries to an earlier one, each with the set of all its images."""
    found = []
    for b in blocks:
        steps.take(1)
        images = set()
        for one in maps:
            steps.take(1)
            moved = image(one, b)
            if moved < b:
                break
            images.add(moved)
        else:
            found.append((b, images))
    return found


def candidates(problem, steps):
    """All blocks of the stated sizes, in order; raises Limit."""
    points = problem.points
    total = sum(math.comb(points, k) for k in problem.sizes)
    if problem.version == 1 and total > MOST_SUBSETS:
        raise Limit(f"limit subsets {problem.sizes[0]} of {points} above {MOST_SUBSETS}")
    if problem.version == 2 and total > MOST_SUMMED:
        raise Limit(f"limit subsets of {points} above {MOST_SUMMED}")
    steps.take(total)
    return sorted(b for k in problem.sizes for b in itertools.combinations(range(points), k))


def orbit_lines(problem, steps):
    """The text of `orbits`."""
    blocks = candidates(problem, steps)
    maps = maps_of(problem, steps)
    pairs = orbits_of(itertools.combinations(range(problem.points), 2), maps, steps)
    orbits = orbits_of(blocks, maps, steps)
    line = lambda word, orbit: f"{word} {problem.block_text(orbit[0])} size {len(orbit[1])}"
    lines = [f"pairs {len(pairs)}"] + [line("pair", o) for o in pairs]
    return lines + [f"blocks {len(orbits)}"] + [line("block", o) for o in orbits]


class Matrix:
    """The orbit matrix of a problem; the making of it raises Limit."""

    def __init__(self, problem, steps):
        self.problem = problem
        self.candidates = candidates(problem, steps)
        maps = maps_of(problem, steps)
        self.pairs = [b for b, _ in orbits_of(itertools.combinations(range(problem.points), 2), maps, steps)]
        self.orbits = orbits_of(self.candidates, maps, steps)
        self.needed = [b for b, images in self.orbits if images.intersection(problem.required)]
        self.targets = [problem.target(*pair) for pair in self.pairs] + [1] * len(self.needed)
        self.steps = steps
        self.kept = [place for place in range(len(self.orbits)) if self.is_kept(place)]
        self.judge_limits()
        self.columns = [self.entries(place) for place in self.kept]
        self.representatives = [self.orbits[place][0] for place in self.kept]

    def entries(self, place):
        """The number of blocks of an orbit that hold the pair of each row, and whether it is the required orbit of a row."""
        block, images = self.orbits[place]
        self.steps.take(len(images) * math.comb(len(block), 2) + len(self.targets))
        covers = collections.Counter(pair for b in images for pair in itertools.combinations(b, 2))
        return [covers[pair] for pair in self.pairs] + [int(b == block) for b in self.needed]

    def is_kept(self, place):
        below = all(e <= t for e, t in zip(self.entries(place), self.targets))
        return below and not self.orbits[place][1].intersection(self.problem.forbidden)

    def judge_limits(self):
        columns, rows = len(self.kept), len(self.targets)
        if columns > MOST_COLUMNS:
            raise Limit(f"limit columns {columns} above {MOST_COLUMNS}")
        if self.problem.version == 1 and rows * columns > MOST_ENTRIES:
            raise Limit(f"limit entries {rows * columns} above {MOST_ENTRIES}")

    def design(self, yes):
        """All blocks of the orbits of some columns, increasing."""
        return sorted(b for column in yes for b in self.orbits[self.kept[column]][1])

    def lines(self):
        """The text of `matrix`."""
        text = self.problem.block_text
        lines = [f"rows {len(self.targets)} orbits {len(self.orbits)} kept {len(self.kept)}"]
        names = ["pair " + text(pair) for pair in self.pairs] + ["block " + text(b) for b in self.needed]
        for row, (name, target) in enumerate(zip(names, self.targets)):
            lines.append(f"row {row} {name} target {target}")
        numbers = {place: column for column, place in enumerate(self.kept)}
        for place, (block, _) in enumerate(self.orbits):
            end = f"column {numbers[place]}" if place in numbers else "dropped"
            entries = " ".join(map(str, self.entries(place)))
            lines.append(f"orbit {text(block)} entries {entries} {end}")
        return lines
