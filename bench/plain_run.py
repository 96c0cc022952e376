"""Walks and runs, by the definitions alone: what remains at a path, and how far a budget goes; the texts of runs.

Part of plain.py. A path is a tuple of truth values for the first columns. Nothing is kept from one path to the next.
"""
import itertools, math

from plain_source import canonical

DEFAULT_BUDGET = 1000000000
MOST_FAMILIES = 1 << 12


def need(matrix, path, row):
    return matrix.targets[row] - sum(column[row] for column, yes in zip(matrix.columns, path) if yes)


def entry_of(matrix, path, plain, steps):
    """The entry of a path: its word and numbers."""
    later = matrix.columns[len(path):]
    rows = range(len(matrix.targets))
    steps.take(1 + len(rows) * len(matrix.columns) // 8)
    needs = [need(matrix, path, row) for row in rows]
    for row in rows:
        if needs[row] < 0:
            return ("over", row)
    for row in rows:
        if needs[row] > sum(column[row] for column in later):
            return ("under", row)
    for row in rows:
        divisor = math.gcd(*(column[row] for column in later))
        if not plain and divisor >= 2 and needs[row] % divisor:
            return ("residue", row, divisor)
    return ("branch", len(path)) if any(needs) else ("settled",)


def path_text(path):
    return " ".join(map(str, path_numbers(path)))


def path_numbers(path):
    """A path's length and its yes columns."""
    return [len(path)] + [column for column, yes in enumerate(path) if yes]


def path_fault(matrix, length, chosen, plain, steps):
    """Why a path isn't a node, or None."""
    if length > len(matrix.columns):
        return f"path refused length {length} above {len(matrix.columns)}"
    path = tuple(column in chosen for column in range(length))
    for shorter in range(length):
        steps.take(1 + len(matrix.targets))
        if not any(need(matrix, path[:shorter], row) for row in range(len(matrix.targets))):
            return f"path refused settled before {shorter}"
    word, *numbers = entry_of(matrix, path, plain, steps)
    return f"path refused {word} {numbers[0]}" if word in ("over", "under", "residue") else None


class Run:
    """What a run from a path with a budget passes: the entries, the yes columns of its solutions, and where it stops."""

    def __init__(self, matrix, start, plain, budget, steps):
        self.matrix, self.start, self.plain = matrix, start, plain
        self.passed, self.nodes, self.stop = [], 0, None
        remaining = [start[:place] + (False,) for place, yes in enumerate(start) if yes] + [start]
        while remaining:
            path = remaining.pop()
            entry = entry_of(matrix, path, plain, steps)
            if entry[0] in ("branch", "settled"):
                if self.nodes == budget:
                    self.stop = path
                    break
                self.nodes += 1
            if entry[0] == "branch":
                remaining += [path + (False,), path + (True,)]
            yes = [column for column, value in enumerate(path) if value] if entry[0] == "settled" else None
            self.passed.append((entry, yes))
        self.solutions = [yes for _, yes in self.passed if yes is not None]
        if start == () and self.stop is None:
            assert_all_are_found(self, steps)

    @property
    def status(self):
        return 0 if self.stop is None else 7

    def base(self, yes):
        return [self.matrix.representatives[column] for column in yes]

    def end(self):
        begin = "finished" if self.stop is None else "spent"
        line = f"end {begin} designs {len(self.solutions)} nodes {self.nodes}"
        return line if self.stop is None else f"{line} next {path_text(self.stop)}"


def assert_all_are_found(run, steps):
    """Where there are few blocks, the designs of a run to the end are those asked for, in their order, which no orbit tells."""
    matrix, problem = run.matrix, run.matrix.problem
    blocks, points = matrix.candidates, range(problem.points)
    if 1 << len(blocks) > MOST_FAMILIES or (1 << len(blocks)) * len(blocks) * problem.points ** 2 > steps.left:
        return
    group, order = problem.group, problem.group.order
    moves = [lambda p, h=h: group.sum(p, h) for h in problem.shift]
    moves += [lambda p, m=m: group.times(m, p) for m in problem.multipliers]
    prescribed = [[move(p) if p < order else p for p in points] for move in moves]
    pairs = [(p, q, problem.target(p, q)) for p, q in itertools.combinations(points, 2)]

    def is_design(family):
        have = set(family)
        return (have.issuperset(problem.required) and not have.intersection(problem.forbidden)
                and all(sum(p in b and q in b for b in family) == target for p, q, target in pairs)
                and all(tuple(sorted(one[p] for p in b)) in have for one in prescribed for b in family))

    families = ([b for b, yes in zip(blocks, choice) if yes] for choice in itertools.product((True, False), repeat=len(blocks)))
    asked = [family for family in families if is_design(family)]
    assert asked == [matrix.design(yes) for yes in run.solutions], "the solutions aren't the designs asked for"


def run_lines(run, log, blocks, steps):
    """The text of a run as a dossier."""
    problem = run.matrix.problem
    source = canonical(problem, steps)
    lines = ["dossier 1" if run.plain else "dossier 2", f"source {len(source)}", *source, "from " + path_text(run.start)]
    for entry, yes in run.passed:
        if log:
            lines.append(" ".join(map(str, entry)))
        if yes is not None:
            lines.append(" ".join(["design", " ; ".join(map(problem.block_text, run.base(yes)))]).rstrip())
            design = run.matrix.design(yes) if blocks else []
            steps.take(len(design))
            lines += ["# block " + problem.block_text(b) for b in design]
    return lines + [run.end()]


def listing(run, blocks, steps):
    """The text of a run as a line of JSON."""
    problem = run.matrix.problem
    array = lambda values: "[" + ",".join(values) + "]"
    texts = lambda values: array(f'"{v}"' for v in values)
    designs = lambda lists: array(array(texts(map(problem.point_text, b)) for b in design) for design in lists)
    members = []
    if blocks:
        all_blocks = [run.matrix.design(yes) for yes in run.solutions]
        steps.take(sum(map(len, all_blocks)))
        members.append(("blocks", designs(all_blocks)))
    members.append(("designs", designs(map(run.base, run.solutions))))
    members.append(("end", '"finished"' if run.stop is None else '"spent"'))
    if run.stop is not None:
        members.append(("next", array(map(str, path_numbers(run.stop)))))
    members += [("nodes", str(run.nodes)), ("source", texts(canonical(problem, steps)))]
    return "{" + ",".join(f'"{name}":{value}' for name, value in members) + "}"
