"""Families, by the definitions alone: development, balance, difference tables, and the same under a subgroup.

Part of plain.py.
"""
import itertools


def shifted(problem, block, h):
    """The translate of a block by an element; fixed points stay."""
    order = problem.group.order
    return tuple(sorted(problem.group.sum(p, h) if p < order else p for p in block))


def fixing(problem, block, translations):
    """How many of some translations fix a block."""
    return sum(shifted(problem, block, h) == block for h in translations)


def development(problem, translations, steps):
    """The translates of each block, those of a `short` block once each."""
    blocks = []
    for kind, block in problem.family:
        steps.take(len(translations) * len(block))
        own = [shifted(problem, block, h) for h in translations]
        blocks += own if kind == "base" else [b for place, b in enumerate(own) if b not in own[:place]]
    return blocks


def is_balanced(problem, blocks, steps):
    """Each two points lie together in as many blocks as their target says."""
    steps.take(problem.points ** 2 * (len(blocks) + 1) // 8)
    cover = lambda p, q: sum(p in b and q in b for b in blocks)
    pairs = itertools.combinations(range(problem.points), 2)
    return all(cover(p, q) == problem.target(p, q) for p, q in pairs)


def found_by(problem, translations, count):
    """The sum of a count over the blocks of the family, divided for `short` ones by the translations that fix them."""
    total = 0
    for kind, block in problem.family:
        one = count(block)
        if kind == "short":
            stabilizer = fixing(problem, block, translations)
            assert one % stabilizer == 0, "a short block's count isn't divided"
            one //= stabilizer
        total += one
    return total


def difference_table(problem, steps):
    """The rows of the difference table: how a row begins, how often it is found, how often stated."""
    group, fixed = problem.group, range(problem.group.order, problem.points)
    steps.take(problem.points ** 2 + group.order * sum(len(b) ** 2 for _, b in problem.family))
    elements = lambda block: [p for p in block if p < group.order]
    found = lambda count: found_by(problem, group.all, count)
    differences = [(kind, b, [group.difference(p, q) for p in elements(b) for q in elements(b) if p != q])
                   for kind, b in problem.family]
    by_block = {b: d for _, b, d in differences}
    rows = []
    for d in group.all[1:]:
        rows.append((f"diff {problem.point_text(d)}", found(lambda b: by_block[b].count(d)), problem.target(0, d)))
    for p in fixed:
        count = lambda b: len(elements(b)) if p in b else 0
        rows.append((f"fixed {problem.point_text(p)}", found(count), problem.target(0, p)))
    for p, q in itertools.combinations(fixed, 2):
        count = lambda b: group.order if p in b and q in b else 0
        rows.append((f"fixed {problem.block_text((p, q))}", found(count), problem.target(p, q)))
    return rows


def mixed_table(problem, steps):
    """The rows of the table under the subgroup of `shift`: classes of pairs, by their earliest pairs."""
    group, order, points = problem.group, problem.group.order, problem.points
    translations = sorted(problem.shift)
    steps.take(points ** 2 * (1 + len(translations) + sum(len(b) ** 2 for _, b in problem.family)))
    rows = []
    for pair in itertools.combinations(range(points), 2):
        if any(shifted(problem, pair, h) < pair for h in translations):
            continue
        p, q = pair
        inside = lambda a, p: group.difference(a, p) in problem.shift

        def count(block):
            elements = [a for a in block if a < order]
            if q < order:
                return sum(group.difference(a, b) == group.difference(p, q) and inside(a, p) for a in elements for b in elements)
            if p < order:
                return sum(inside(a, p) for a in elements) if q in block else 0
            return len(translations) if p in block and q in block else 0

        rows.append((f"pair {problem.block_text(pair)}", found_by(problem, translations, count), problem.target(p, q)))
    return rows


def row_text(row):
    return "{} found {} stated {}".format(*row)


def table_lines(rows):
    return [row_text(row) for row in rows]


def verdict(problem, rows, translations, steps):
    """The status and lines of a verdict on a development, and that it agrees with what balance says."""
    wrong = next((row for row in rows if row[1] != row[2]), None)
    blocks = development(problem, translations, steps)
    assert is_balanced(problem, blocks, steps) == (wrong is None), "the table and the development say different things"
    if wrong:
        return 1, ["refused " + row_text(wrong)]
    return 0, [f"accepted {len(blocks)}"] + ["block " + problem.block_text(b) for b in blocks]
