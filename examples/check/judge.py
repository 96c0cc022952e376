#!/usr/bin/env python3
"""Judges dossiers with logs by the definitions alone, slowly: complete and how many designs they list, or the first line that
breaks a rule.

judge.py < DOSSIER      prints the answer and ends with its status
judge.py DOSSIER..      prints each file whose answer isn't that of its line '# Answer: '; the status is 1 where there is one

Nothing here is shared with the program. Orbits are lists of images, entries are counts, and what a log still wants is found from
its first entry on at each line. A log that is whole is judged once more, by the recursion that says what a log proves; and where
the blocks are few, its designs are compared with all families of blocks, or else with all unions of orbits.
"""
import collections, functools, itertools, math, re, sys

MOST_VECTORS = 1 << 16
Problem = collections.namedtuple("Problem", "version factors fixed shift mults sizes target required forbidden")


class Bad(Exception):
    """A source's fault: its line and its text."""


# Lines, tokens, numbers

def lines_of(data):
    parts = data.split(b"\n")
    return parts if parts[-1] else parts[:-1]


def tokens(line):
    return [t for t in re.split(rb"[ \t\r]+", line.split(b"#")[0]) if t]


def number(token, limit=1 << 64):
    """The number of a token, or None."""
    if re.fullmatch(rb"[0-9]+", token) and int(token) < limit:
        return int(token)
    return None


# Sources

def elements(factors):
    return list(itertools.product(*map(range, factors)))


def generated(factors, generators):
    """The numbers of the elements of a subgroup."""
    exponent, all_elements = math.lcm(*factors), elements(factors)
    members = {(0,) * len(factors)}
    for g in generators:
        multiples = [tuple(c * x % f for x, f in zip(all_elements[g], factors)) for c in range(exponent)]
        members = {tuple((x + y) % f for x, y, f in zip(a, b, factors)) for a in members for b in multiples}
    return {all_elements.index(m) for m in members}


def element(factors, token):
    parts = [number(p) for p in token.split(b",")]
    if len(parts) != len(factors) or any(p is None or p >= f for p, f in zip(parts, factors)):
        return None
    return elements(factors).index(tuple(parts))


def point(factors, fixed, token):
    if token.startswith(b"inf"):
        n = number(token[3:])
        return math.prod(factors) + n - 1 if n is not None and 1 <= n <= fixed else None
    return element(factors, token)


def source(lines):
    """The problem that some lines state; raises Bad."""
    first = next((t for t in map(tokens, lines) if t), [b""])
    version = 2 if first[0] == b"version" else 1
    once = [b"group", b"fixed", b"shift", b"mult", b"k", b"lambda", b"inside", b"hole"]
    blocks = [b"base", b"short"] + [b"require", b"forbid"] * (version == 2)
    seen, names, counts = {}, {}, collections.Counter()
    required, forbidden, begun = [], [], False
    for place, line in enumerate(lines, 1):
        found = tokens(line)
        if not found:
            continue
        word, rest = found[0], found[1:]

        def bad(fault):
            raise Bad(place, fault)

        def take(index):
            return rest[index] if index < len(rest) else bad("BadWord")

        def only(count):
            if len(rest) > count:
                bad("BadWord")

        def value(token, fault, holds):
            n = number(token)
            return bad("BadNumber") if n is None else n if holds(n) else bad(fault)

        def subgroup(token):
            if token not in (b"all", b"none") and token not in names:
                bad("UnknownName")
            return set(range(order)) if token == b"all" else {0} if token == b"none" else names[token]

        if word == b"version":
            if begun or version == 1:
                bad("BadWord")
            begun = True
            if number(take(0)) != 2:
                bad("BadNumber")
            only(1)
            continue
        begun = True
        if word not in once + blocks + [b"subgroup"]:
            bad("BadWord")
        if word in once and word in seen:
            bad("Repeated")
        if word != b"group" and b"group" not in seen:
            bad("Missing group")
        if word in blocks and b"k" not in seen:
            bad("Missing k")
        kind = 0 if word in (b"base", b"short") else 1
        if word in blocks and counts[kind] == 4096:
            bad("TooManyBlocks")
        factors = seen.get(b"group", [])
        order, fixed = math.prod(factors), seen.get(b"fixed", 0)
        if word == b"group":
            take(0)
            factors = []
            for token in rest:
                fits = lambda n: 2 <= n <= 128 and len(factors) < 7 and math.prod(factors) * n <= 128
                factors.append(value(token, "GroupRange", fits))
            seen[word] = factors
        elif word == b"fixed":
            seen[word] = value(take(0), "FixedRange", lambda n: n <= 16 and order + n <= 128)
            only(1)
        elif word == b"subgroup":
            name = take(0)
            if not re.fullmatch(rb"[A-Za-z][A-Za-z0-9_]{0,15}", name):
                bad("BadWord")
            if name in (b"all", b"none") or name in names:
                bad("NameTaken")
            generators = [element(factors, t) for t in rest[1:]]
            if None in generators:
                bad("BadElement")
            names[name] = generated(factors, generators)
        elif word == b"shift":
            seen[word] = subgroup(take(0))
            only(1)
        elif word == b"mult":
            take(0)
            exponent = math.lcm(*factors)
            seen[word] = [value(t, "NotUnit", lambda n: math.gcd(n, exponent) == 1) % exponent for t in rest]
        elif word == b"k":
            take(0)
            sizes = []
            for place_in_line, token in enumerate(rest):
                if place_in_line and version == 1:
                    bad("BadWord")
                sizes.append(value(token, "SizeRange", lambda n: 2 <= n <= 16 and n <= order + fixed))
            seen[word] = sorted(set(sizes))
        elif word == b"inside":
            members = subgroup(take(0))
            seen[word] = members, value(take(1), "TargetRange", lambda n: n <= 2000000)
            only(2)
        elif word in (b"lambda", b"hole"):
            seen[word] = value(take(0), "TargetRange", lambda n: n <= 2000000)
            only(1)
        else:
            block = []
            for token in rest:
                p = point(factors, fixed, token)
                if p is None:
                    bad("BadElement")
                if p in block:
                    bad("PointTwice")
                block.append(p)
            if len(block) not in seen[b"k"]:
                bad("BlockSize")
            counts[kind] += 1
            if kind:
                (required if word == b"require" else forbidden).append(tuple(sorted(block)))
    for word in (b"group", b"k", b"lambda"):
        if word not in seen:
            raise Bad(0, "Missing " + word.decode())
    factors, fixed = seen[b"group"], seen.get(b"fixed", 0)
    order, every = math.prod(factors), elements(factors)

    def target(p, q):
        if p >= order and q >= order:
            return seen.get(b"hole", seen[b"lambda"])
        if p < order and q < order and b"inside" in seen:
            difference = tuple((y - x) % f for x, y, f in zip(every[p], every[q], factors))
            if every.index(difference) in seen[b"inside"][0]:
                return seen[b"inside"][1]
        return seen[b"lambda"]

    shift = seen.get(b"shift", set(range(order)))
    return Problem(version, factors, fixed, shift, seen.get(b"mult", []), seen[b"k"], target, required, forbidden)


# The orbit system

class Matrix:
    """The rows, the columns by their representatives, targets and entries of a problem."""

    def __init__(self, problem):
        order, every = math.prod(problem.factors), elements(problem.factors)
        places = {e: n for n, e in enumerate(every)}
        points = range(order + problem.fixed)
        exponent = math.lcm(*problem.factors)
        products, more = {1 % exponent}, True
        while more:
            wider = products | {a * m % exponent for a in products for m in problem.mults}
            products, more = wider, wider != products

        def image(m, h):
            moved = [places[tuple((m * x + y) % f for x, y, f in zip(e, every[h], problem.factors))] for e in every]
            return moved + list(points)[order:]

        self.problem, self.points = problem, points
        self.prescribed = [image(1, h) for h in problem.shift] + [image(m, 0) for m in problem.mults]
        maps = [image(m, h) for m in products for h in problem.shift]
        self.candidates = sorted(b for k in problem.sizes for b in itertools.combinations(points, k))

        def orbits(blocks):
            found, seen = [], set()
            for b in blocks:
                if b not in seen:
                    found.append({tuple(sorted(m[p] for p in b)) for m in maps})
                    seen |= found[-1]
            return found

        self.orbits = orbits(self.candidates)
        pairs = [min(o) for o in orbits(itertools.combinations(points, 2))]
        needed = [o for o in self.orbits if any(b in o for b in problem.required)]
        self.targets = [problem.target(*pair) for pair in pairs] + [1] * len(needed)
        self.columns, self.members, self.entries = [], [], []
        for o in self.orbits:
            entries = [sum(p in b and q in b for b in o) for p, q in pairs] + [int(o is n) for n in needed]
            if all(e <= t for e, t in zip(entries, self.targets)) and not any(b in o for b in problem.forbidden):
                self.columns.append(min(o))
                self.members.append(o)
                self.entries.append(entries)

    def design(self, yes):
        return sorted(b for c in yes for b in self.members[c])

    def is_design(self, blocks):
        """Balanced, kept by the prescribed maps, with the required blocks and without the forbidden ones."""
        have = set(blocks)
        cover = lambda p, q: sum(p in b and q in b for b in blocks)
        return (all(cover(p, q) == self.problem.target(p, q) for p, q in itertools.combinations(self.points, 2))
                and all(tuple(sorted(m[p] for p in b)) in have for m in self.prescribed for b in blocks)
                and have.issuperset(self.problem.required) and not have.intersection(self.problem.forbidden))

    def asked(self):
        """All designs asked for, or None where there are too many families to look at."""
        parts = [[b] for b in self.candidates]
        if 1 << len(parts) > MOST_VECTORS:
            parts = [sorted(o) for o in self.orbits]
        if 1 << len(parts) > MOST_VECTORS:
            return None
        families = (sorted(itertools.chain(*chosen)) for n in range(len(parts) + 1) for chosen in itertools.combinations(parts, n))
        return [f for f in families if self.is_design(f)]


def limit_of(problem):
    points = math.prod(problem.factors) + problem.fixed
    total = sum(math.comb(points, k) for k in problem.sizes)
    if problem.version == 1 and total > 2000000:
        return f"limit subsets {problem.sizes[0]} of {points} above 2000000"
    if problem.version == 2 and total > 8000000:
        return f"limit subsets of {points} above 8000000"
    return None


# Logs. Decisions are the set of the yes columns and that of the no columns.

def need(matrix, decided, row):
    return matrix.targets[row] - sum(matrix.entries[c][row] for c in decided[0])


def undecided(matrix, decided):
    return [c for c in range(len(matrix.columns)) if c not in decided[0] and c not in decided[1]]


def with_column(decided, column, yes):
    return (decided[0] | {column}, decided[1]) if yes else (decided[0], decided[1] | {column})


NOTHING = frozenset(), frozenset()


def fault_of(matrix, decided, entry):
    """Why an entry doesn't hold of some decisions, or None."""
    word, rest = entry[0], entry[1:]
    rows, free = len(matrix.targets), undecided(matrix, decided)
    if word == "branch":
        return "ColumnRange" if rest[0] >= len(matrix.columns) else None if rest[0] in free else "ColumnDecided"
    if word == "settled":
        for row in range(rows):
            if need(matrix, decided, row):
                return f"NotSettled row {row} need {need(matrix, decided, row)}"
        return None
    pairs = rest if word == "cut" else [(1, rest[0])]
    if any(row >= rows for _, row in pairs):
        return "RowRange"
    wanted = sum(w * need(matrix, decided, row) for w, row in pairs)
    weights = {c: sum(w * matrix.entries[c][row] for w, row in pairs) for c in free}
    if word == "over":
        return None if wanted < 0 else f"NotOver need {wanted}"
    if word == "under":
        cap = sum(weights.values())
        return None if wanted > cap else f"NotUnder need {wanted} cap {cap}"
    if word == "residue":
        column = next((c for c in free if weights[c] % rest[1]), -1)
        return None if column < 0 and wanted % rest[1] else f"NotResidue need {wanted} column {column}"
    least, greatest = sum(w for w in weights.values() if w < 0), sum(w for w in weights.values() if w > 0)
    return None if wanted < least or wanted > greatest else f"NotCut least {least} greatest {greatest}"


def wanted_logs(entries):
    """The decisions whose logs are still to come after some entries that hold, the next one last."""
    logs = [NOTHING]
    for entry in entries:
        decided = logs.pop()
        if entry[0] == "branch":
            logs += [with_column(decided, entry[1], False), with_column(decided, entry[1], True)]
    return logs


def proved(matrix, decided, entries):
    """What the log at the beginning of some entries lists, and the entries after it; None where there is no log."""
    if not entries or fault_of(matrix, decided, entries[0]):
        return None
    word = entries[0][0]
    if word == "branch":
        first = proved(matrix, with_column(decided, entries[0][1], True), entries[1:])
        second = first and proved(matrix, with_column(decided, entries[0][1], False), first[1])
        return second and (first[0] + second[0], second[1])
    return [sorted(decided[0])] if word == "settled" else [], entries[1:]


# Lines of dossiers

def path_of(rest):
    """The length and the yes columns, or None."""
    numbers = [number(t, 1 << 32) for t in rest]
    if not numbers or None in numbers or any(c >= numbers[0] for c in numbers[1:]):
        return None
    return numbers if all(a < b for a, b in zip(numbers[1:], numbers[2:])) else None


def entry_of(found, plain):
    word, rest = found[0], found[1:]
    numbers = [number(t, 1 << 32) for t in rest]
    if word == b"settled":
        return None if rest else ("settled",)
    if word in (b"branch", b"over", b"under"):
        return (word.decode(), *numbers) if len(rest) == 1 and None not in numbers else None
    if plain:
        return None
    if word == b"residue":
        return ("residue", *numbers) if len(rest) == 2 and None not in numbers and numbers[1] >= 2 else None
    if word != b"cut" or len(rest) % 2 or not 2 <= len(rest) <= 32:
        return None
    pairs = []
    for weight, row in zip(rest[::2], numbers[1::2]):
        size = number(weight.removeprefix(b"-"))
        if size is None or not 1 <= size <= 1000 or row is None or pairs and pairs[-1][1] >= row:
            return None
        pairs.append((-size if weight.startswith(b"-") else size, row))
    return ("cut", *pairs)


def design_of(problem, rest):
    blocks = [[]]
    for token in rest:
        if token == b";":
            blocks.append([])
        else:
            blocks[-1].append(point(problem.factors, problem.fixed, token))
    if not rest:
        return []
    for b in blocks:
        if None in b or len(b) not in problem.sizes or any(p >= q for p, q in zip(b, b[1:])):
            return None
    return [tuple(b) for b in blocks]


def end_of(found):
    """Whether it is finished, and the path; None where it is no end line."""
    form = [b"end", None, b"designs", None, b"nodes", None]
    if len(found) < 6 or any(f is not None and f != t for f, t in zip(form, found)):
        return None
    if number(found[3]) is None or number(found[5]) is None:
        return None
    if found[1] == b"finished":
        return (True, None) if len(found) == 6 else None
    path = path_of(found[7:]) if found[1] == b"spent" and found[6:7] == [b"next"] else None
    return path and (False, path)


@functools.lru_cache(maxsize=4096)
def stated(lines):
    """The problem of some lines and its matrix, or the limit that it is above."""
    problem = source(lines)
    return problem, limit_of(problem) or Matrix(problem)


def judge(data):
    """The answer and its status."""
    lines = lines_of(data)
    entries, leaves, given, open_logs, settled = [], [], [], [NOTHING], False
    first, place, before, ended = None, 0, None, 0

    def refused(text):
        return f"refused line {place} {text}", 1

    def bad(fault, line=None):
        return f"dossier refused line {place if line is None else line} {fault}", 3

    def next_tokens():
        nonlocal place
        while place < len(lines):
            place += 1
            if tokens(lines[place - 1]):
                return tokens(lines[place - 1])
        return None

    while True:
        found = next_tokens()
        if found is None:
            break
        if found not in ([b"dossier", b"1"], [b"dossier", b"2"]):
            return bad("BadHead")
        plain = found[1] == b"1"
        found = next_tokens()
        if found is None:
            return bad("BadHead", 0)
        count = number(found[1]) if len(found) == 2 and found[0] == b"source" else None
        if not count:
            return bad("BadHead")
        if first and count != len(first):
            return refused("SourceDiffers")
        begin = place
        if first:
            for line in first:
                if place == len(lines):
                    return bad("BadHead", 0)
                place += 1
                if lines[place - 1] != line:
                    return refused("SourceDiffers")
        else:
            if len(lines) - place < count:
                return bad("BadHead", 0)
            first = lines[place:place + count]
            place += count
            try:
                problem, matrix = stated(tuple(first))
            except Bad as fault:
                return bad("BadSource " + fault.args[1], begin + fault.args[0])
            if isinstance(matrix, str):
                return matrix, 3
        found = next_tokens()
        if found is None:
            return bad("BadHead", 0)
        path = path_of(found[1:])
        if found[0] != b"from" or path is None:
            return bad("BadHead")
        if path != ([0] if before is None else before[1]):
            return refused("ChainBroken")
        while True:
            found = next_tokens()
            if found is None:
                return bad("BadEnd", 0)
            if found[0] == b"end":
                before = end_of(found)
                if before is None:
                    return bad("BadEnd")
                if before[0] and open_logs:
                    return refused("OpenAtEnd")
                ended = place
                break
            if found[0] == b"design":
                blocks = design_of(problem, found[1:])
                if blocks is None:
                    return bad("BadDesign")
                if not open_logs:
                    return refused("AfterClose")
                if not settled:
                    return refused("NotEntry")
                chosen = sorted(open_logs[-1][0])
                wanted = [matrix.columns[c] for c in chosen]
                if blocks != wanted:
                    same = itertools.takewhile(lambda both: both[0] == both[1], zip(blocks, wanted))
                    return refused(f"DesignDiffers place {len(list(same))}")
                leaves.append(chosen)
                given.append(blocks)
                settled = False
                open_logs = wanted_logs(entries)
                continue
            entry = entry_of(found, plain)
            if entry is None:
                return bad("BadEntry")
            if not open_logs:
                return refused("AfterClose")
            if settled:
                return refused("DesignWanted")
            fault = fault_of(matrix, open_logs[-1], entry)
            if fault:
                return refused(fault)
            entries.append(entry)
            if entry[0] == "settled":
                settled = True
            else:
                open_logs = wanted_logs(entries)
    if before is None:
        return bad("BadHead", 0)
    if not before[0]:
        place = ended
        return refused("OpenAtEnd")
    # a log that is whole: the recursion has the same list, and its designs are those asked for
    if proved(matrix, NOTHING, entries) != (leaves, []):
        raise AssertionError("the recursion says something else")
    asked = matrix.asked()
    if asked is not None and sorted(asked) != sorted(map(matrix.design, leaves)):
        raise AssertionError("a whole log, and other designs")
    return f"complete {len(given)}", 0


def main():
    sys.setrecursionlimit(1000000)
    if len(sys.argv) == 1:
        text, status = judge(sys.stdin.buffer.read())
        print(text)
        sys.exit(status)
    differs = 0
    for name in sys.argv[1:]:
        with open(name, "rb") as file:
            data = file.read()
        wanted = re.search(rb"^# Answer: (.*)$", data, re.M)[1].decode()
        text, _ = judge(data)
        if text != wanted:
            print(f"{name}: '{text}', not '{wanted}'")
            differs += 1
    print(f"{len(sys.argv) - 1 - differs} agree, {differs} differ")
    sys.exit(differs > 0)


if __name__ == "__main__":
    main()
