"""Sources, by the definitions alone: lines, tokens, numbers, what a source states, and its canonical lines.

Part of plain.py. A point is its number: the elements in their order, and then the fixed points. A block is the increasing tuple of
its points, and a subgroup the set of its elements.
"""
import itertools, math, re

MOST_NUMBER = 1 << 64
MOST_TARGET = 2000000
MOST_BLOCKS = 4096
ONCE = ("group", "fixed", "shift", "mult", "k", "lambda", "inside", "hole")
FAMILY = ("base", "short")
CONDITIONS = ("require", "forbid")


class TooSlow(Exception):
    """More steps would be needed than are allowed; the question has no answer here."""


class Steps:
    """A bound on what is done for one answer, so that no question takes long."""

    def __init__(self, most=1 << 62):
        self.left = most

    def take(self, count):
        self.left -= count
        if self.left < 0:
            raise TooSlow()


class Fault(Exception):
    """What is wrong with a source: the number of a line, counted from 1 or 0 for the end, and the fault's text."""


# Lines, tokens and numbers

def lines_of(data):
    """The lines of some bytes; bytes after the last line feed are a line too."""
    parts = data.split(b"\n")
    return parts if parts[-1] else parts[:-1]


def tokens(line):
    """The tokens of a line before its comment, as texts with a character for each byte."""
    return [t for t in re.split("[ \t\r]+", line.decode("latin-1").split("#")[0]) if t]


def number(token, limit=MOST_NUMBER):
    """The number of a token, or None where it is none or isn't below the limit."""
    digits = token.lstrip("0")
    if not re.fullmatch("[0-9]+", token) or len(digits) > len(str(MOST_NUMBER)):
        return None
    value = int(digits or "0")
    return value if value < limit else None


# Groups

class Group:
    """The product of cyclic groups; an element is its place in the list of all residue lists."""

    def __init__(self, factors):
        self.factors = factors
        self.residues = list(itertools.product(*map(range, factors)))
        self.places = {r: place for place, r in enumerate(self.residues)}
        self.order = len(self.residues)
        self.exponent = next(e for e in itertools.count(1) if all(e % f == 0 for f in factors))
        self.all = range(self.order)

    def place_by_place(self, combine, *elements):
        lists = zip(*(self.residues[e] for e in elements))
        return self.places[tuple(combine(*r) % f for r, f in zip(lists, self.factors))]

    def sum(self, a, b):
        return self.place_by_place(lambda x, y: x + y, a, b)

    def difference(self, a, b):
        return self.place_by_place(lambda x, y: x - y, a, b)

    def times(self, m, a):
        return self.place_by_place(lambda x: m * x, a)

    def is_unit(self, m):
        """No number from 2 on divides both the number and the exponent."""
        return not any(m % d == 0 and self.exponent % d == 0 for d in range(2, self.exponent + 1))

    def generated(self, generators, steps):
        """The subgroup of some generators: the sums of multiples of them."""
        members = {0}
        for g in generators:
            steps.take(len(members) * self.exponent)
            multiples = {self.times(c, g) for c in range(self.exponent)}
            members = {self.sum(a, b) for a in members for b in multiples}
        return members

    def canonical(self, members, steps):
        """The members, in order, that aren't in the subgroup of those kept before."""
        kept = []
        for m in sorted(members):
            if m not in self.generated(kept, steps):
                kept.append(m)
        return kept


# Problems

class Problem:
    """What a source states. A subgroup is a word: `all`, `none` or a name."""

    def __init__(self, version):
        self.version = version
        self.stated = {}
        self.names = {}
        self.family = []
        self.required = []
        self.forbidden = []

    @property
    def group(self):
        return self.stated["group"]

    @property
    def fixed(self):
        return self.stated.get("fixed", 0)

    @property
    def points(self):
        return self.group.order + self.fixed

    @property
    def sizes(self):
        return self.stated["k"]

    @property
    def shift(self):
        return self.subgroup(self.stated.get("shift", "all"))

    @property
    def multipliers(self):
        return self.stated.get("mult", [])

    def subgroup(self, word):
        return set(self.group.all) if word == "all" else {0} if word == "none" else self.names[word]

    def target(self, p, q):
        """In how many blocks two points are to lie together."""
        order = self.group.order
        if p >= order and q >= order:
            return self.stated.get("hole", self.stated["lambda"])
        if p < order and q < order and "inside" in self.stated:
            word, target = self.stated["inside"]
            if self.group.difference(q, p) in self.subgroup(word):
                return target
        return self.stated["lambda"]

    def element(self, token):
        """The element that a token names, or None."""
        parts = [number(part) for part in token.split(",")]
        return None if None in parts else self.group.places.get(tuple(parts))

    def point(self, token):
        """The point that a token names, or None."""
        if not token.startswith("inf"):
            return self.element(token)
        place = number(token[3:])
        return self.group.order + place - 1 if place is not None and 1 <= place <= self.fixed else None

    def point_text(self, p):
        order = self.group.order
        return ",".join(map(str, self.group.residues[p])) if p < order else f"inf{p - order + 1}"

    def block_text(self, block):
        return " ".join(map(self.point_text, block))


# The statements of a source

class Reader:
    """Judges the lines of a source, one after another, and keeps what they state."""

    def __init__(self, version, steps):
        self.problem = Problem(version)
        self.steps = steps
        self.begun = False
        self.place = 0
        self.rest = []

    def bad(self, fault):
        raise Fault(self.place, fault)

    def line(self, place, found):
        """Judges the tokens of a line and takes what it states."""
        self.place, word, self.rest = place, found[0], found[1:]
        first, self.begun = not self.begun, True
        if word == "version" and first:
            return self.version()
        blocks = FAMILY + CONDITIONS if self.problem.version == 2 else FAMILY
        if word not in ONCE + blocks + ("subgroup",):
            self.bad("BadWord")
        if word in ONCE and word in self.problem.stated:
            self.bad("Repeated")
        if word != "group" and "group" not in self.problem.stated:
            self.bad("Missing group")
        if word in blocks:
            return self.block(word)
        statement = getattr(self, "lambda_" if word == "lambda" else word)
        value = statement()
        if word in ONCE:
            self.problem.stated[word] = value

    def wanted(self, index):
        """The token at a place, which has to be there."""
        return self.rest[index] if index < len(self.rest) else self.bad("BadWord")

    def only(self, count):
        if len(self.rest) > count:
            self.bad("BadWord")

    def number(self, token, fault, holds):
        value = number(token)
        if value is None:
            self.bad("BadNumber")
        return value if holds(value) else self.bad(fault)

    def single(self, fault, holds):
        """The number of a statement that takes one number and nothing else."""
        value = self.number(self.wanted(0), fault, holds)
        self.only(1)
        return value

    def word_of_subgroup(self):
        word = self.wanted(0)
        return word if word in ("all", "none") or word in self.problem.names else self.bad("UnknownName")

    def version(self):
        if number(self.wanted(0)) != 2:
            self.bad("BadNumber")
        self.only(1)

    def group(self):
        self.wanted(0)
        factors = []
        for token in self.rest:
            fits = lambda f: 2 <= f <= 128 and len(factors) < 7 and math.prod(factors) * f <= 128
            factors.append(self.number(token, "GroupRange", fits))
        return Group(factors)

    def fixed(self):
        return self.single("FixedRange", lambda f: f <= 16 and self.problem.group.order + f <= 128)

    def subgroup(self):
        name = self.wanted(0)
        if not re.fullmatch("[A-Za-z][A-Za-z0-9_]{0,15}", name):
            self.bad("BadWord")
        if name in ("all", "none") or name in self.problem.names:
            self.bad("NameTaken")
        generators = [self.problem.element(token) for token in self.rest[1:]]
        if None in generators:
            self.bad("BadElement")
        self.problem.names[name] = self.problem.group.generated(generators, self.steps)

    def shift(self):
        word = self.word_of_subgroup()
        self.only(1)
        return word

    def mult(self):
        self.wanted(0)
        group, kept = self.problem.group, []
        for token in self.rest:
            m = self.number(token, "NotUnit", lambda n: group.is_unit(n % group.exponent)) % group.exponent
            if m not in kept:
                kept.append(m)
        return kept

    def k(self):
        self.wanted(0)
        sizes = set()
        for index, token in enumerate(self.rest):
            if index and self.problem.version == 1:
                self.bad("BadWord")
            sizes.add(self.number(token, "SizeRange", lambda n: 2 <= n <= 16 and n <= self.problem.points))
        return sorted(sizes)

    def lambda_(self):
        return self.single("TargetRange", lambda n: n <= MOST_TARGET)

    hole = lambda_

    def inside(self):
        word = self.word_of_subgroup()
        target = self.number(self.wanted(1), "TargetRange", lambda n: n <= MOST_TARGET)
        self.only(2)
        return word, target

    def block(self, word):
        """A line of one of the four kinds of blocks."""
        problem = self.problem
        if "k" not in problem.stated:
            self.bad("Missing k")
        above = len(problem.family) if word in FAMILY else len(problem.required) + len(problem.forbidden)
        if above >= MOST_BLOCKS:
            self.bad("TooManyBlocks")
        points = []
        for token in self.rest:
            p = problem.point(token)
            if p is None:
                self.bad("BadElement")
            if p in points:
                self.bad("PointTwice")
            points.append(p)
        if len(points) not in problem.sizes:
            self.bad("BlockSize")
        block = tuple(sorted(points))
        if word in FAMILY:
            problem.family.append((word, block))
        else:
            (problem.required if word == "require" else problem.forbidden).append(block)


def problem_of(lines, steps):
    """The problem that some lines state; raises Fault."""
    found = [tokens(line) for line in lines]
    first = next((f for f in found if f), [""])
    reader = Reader(2 if first[0] == "version" else 1, steps)
    for place, line in enumerate(found, 1):
        steps.take(1 + len(line))
        if line:
            reader.line(place, line)
    for word in ("group", "k", "lambda"):
        if word not in reader.problem.stated:
            raise Fault(0, "Missing " + word)
    return reader.problem


def canonical(problem, steps):
    """The canonical lines of a problem."""
    group, stated = problem.group, problem.stated
    numbers = lambda word, values: " ".join([word, *map(str, values)])
    lines = ["version 2"] if problem.version == 2 else []
    lines += [numbers("group", group.factors), f"fixed {problem.fixed}"]
    for name, members in problem.names.items():
        generators = [problem.point_text(e) for e in group.canonical(members, steps)]
        lines.append(" ".join(["subgroup", name, *generators]))
    lines.append("shift " + stated.get("shift", "all"))
    if "mult" in stated:
        lines.append(numbers("mult", stated["mult"]))
    lines += [numbers("k", problem.sizes), f"lambda {stated['lambda']}"]
    if "inside" in stated:
        lines.append("inside {} {}".format(*stated["inside"]))
    lines.append(f"hole {stated.get('hole', stated['lambda'])}")
    for word, block in problem.family:
        lines.append(f"{word} {problem.block_text(block)}")
    lines += ["require " + problem.block_text(b) for b in problem.required]
    return lines + ["forbid " + problem.block_text(b) for b in problem.forbidden]
