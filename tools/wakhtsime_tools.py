"""What the tools around the program share: groups, families, sources, and calls of the program. No proof is claimed of it."""
from __future__ import annotations

import os
import subprocess
import sys
from collections import Counter
from dataclasses import dataclass, field
from functools import lru_cache
from itertools import product
from math import prod
from pathlib import Path
from typing import Iterator, Union

MOST_POINTS = 128
MOST_FACTORS = 7
MOST_FIXED = 16
MOST_SIZE = 16
MOST_BLOCKS = 4096
MOST_TARGET = 2_000_000
REFUSED, USAGE, BAD_INPUT, NO_PROGRAM = 1, 2, 3, 9

Element = tuple[int, ...]
Point = Union[Element, int]  # a fixed point is its number, from 1
Row = tuple[Point, ...]  # of the difference table: a difference, a fixed point, or two fixed points


class ToolError(Exception):
    """What is said on standard error, and the status that the tool ends with."""

    def __init__(self, text: str, status: int = BAD_INPUT):
        super().__init__(text)
        self.status = status


@dataclass(frozen=True)
class Group:
    """A product of cyclic groups. An element has a residue for each factor."""

    factors: tuple[int, ...]

    @property
    def order(self) -> int:
        return prod(self.factors)

    @property
    def zero(self) -> Element:
        return (0,) * len(self.factors)

    def elements(self) -> Iterator[Element]:
        return product(*map(range, self.factors))

    def add(self, one: Element, other: Element) -> Element:
        return tuple((a + b) % n for a, b, n in zip(one, other, self.factors))

    def subtract(self, one: Element, other: Element) -> Element:
        return tuple((a - b) % n for a, b, n in zip(one, other, self.factors))

    def generated(self, generators: list[Element]) -> frozenset[Element]:
        """The subgroup that some elements generate."""
        members, new = {self.zero}, [self.zero]
        while new:
            new = [x for x in {self.add(a, b) for a in new for b in generators} if x not in members]
            members.update(new)
        return frozenset(members)

    def __str__(self) -> str:
        return " ".join(map(str, self.factors))


def is_fixed(point: Point) -> bool:
    return isinstance(point, int)


def name_of(point: Point) -> str:
    """The point as a source writes it."""
    return f"inf{point}" if is_fixed(point) else ",".join(map(str, point))


def name_points(points) -> str:
    return " ".join(map(name_of, points))


def order_of(point: Point):
    """Elements come before fixed points."""
    return (1, (point,)) if is_fixed(point) else (0, point)


def read_point(token: str) -> Point:
    """A point as the program prints it."""
    return int(token[3:]) if token.startswith("inf") else tuple(map(int, token.split(",")))


@dataclass(frozen=True)
class Block:
    """A block of a family. A short one is developed into its different translates alone."""

    points: tuple[Point, ...]
    is_short: bool = True

    def elements(self) -> list[Element]:
        return [point for point in self.points if not is_fixed(point)]

    def fixed(self) -> list[int]:
        return sorted(point for point in self.points if is_fixed(point))

    @lru_cache(maxsize=None)
    def stabilizer(self, group: Group) -> tuple[Element, ...]:
        """The translations that map the block to itself, 0 among them."""
        elements = set(self.elements())
        if not elements:
            return tuple(group.elements())
        first = next(iter(elements))
        shifts = sorted(group.subtract(element, first) for element in elements)
        return tuple(h for h in shifts if all(group.add(element, h) in elements for element in elements))

    def translates(self, group: Group) -> int:
        """How many blocks it is developed into."""
        return group.order // (len(self.stabilizer(group)) if self.is_short else 1)

    def sources_of(self, group: Group) -> Iterator[tuple[Row, tuple[Point, ...]]]:
        """Each row of the difference table that the block adds to, with the points that do so, repeats of short blocks kept."""
        elements, fixed = self.elements(), self.fixed()
        for p in elements:
            for q in elements:
                if p != q:
                    yield (group.subtract(q, p),), (p, q)
        for point in fixed:
            for p in elements:
                yield (point,), (p, point)
        for place, point in enumerate(fixed):
            for other in fixed[place + 1 :]:
                yield (point, other), (point, other)

    def counts(self, group: Group) -> Counter:
        """What the block adds to each row of the difference table."""
        found = Counter(row for row, _ in self.sources_of(group))
        for row in found:
            if len(row) == 2:
                found[row] *= group.order
        if self.is_short:
            order = len(self.stabilizer(group))
            found = Counter({row: number // order for row, number in found.items()})
        return found

    def __str__(self) -> str:
        return name_points(self.points)


def table_rows(group: Group, fixed: int) -> list[Row]:
    """The rows of the difference table, in its order."""
    points = range(1, fixed + 1)
    differences = [(element,) for element in group.elements() if element != group.zero]
    return differences + [(p,) for p in points] + [(p, q) for p in points for q in points if p < q]


def count_rows(group: Group, blocks: list[Block]) -> Counter:
    """How often each row of the difference table is found in the blocks of a family."""
    found = Counter()
    for block in blocks:
        found.update(block.counts(group))
    return found


@dataclass
class Source:
    """A source, as its canonical lines state it."""

    group: Group = Group(())
    fixed: int = 0
    subgroups: dict[str, frozenset[Element]] = field(default_factory=dict)
    sizes: list[int] = field(default_factory=list)
    target: int = 0
    inside: tuple[str, int] | None = None
    hole: int = 0
    blocks: list[Block] = field(default_factory=list)

    @property
    def points(self) -> list[Point]:
        return [*self.group.elements(), *range(1, self.fixed + 1)]

    def stated(self, row: Row) -> int:
        """How often a row of the difference table is to be found."""
        if len(row) == 2:
            return self.hole
        if self.inside and row[0] in self.subgroups[self.inside[0]]:
            return self.inside[1]
        return self.target


def read_canonical(lines: list[str]) -> Source:
    """Reads what 'show' prints."""
    source = Source()
    for word, *tokens in map(str.split, lines):
        if word == "group":
            source.group = Group(tuple(map(int, tokens)))
            source.subgroups = {"all": frozenset(source.group.elements()), "none": frozenset([source.group.zero])}
        elif word == "fixed":
            source.fixed = int(tokens[0])
        elif word == "subgroup":
            source.subgroups[tokens[0]] = source.group.generated([read_point(token) for token in tokens[1:]])
        elif word == "k":
            source.sizes = list(map(int, tokens))
        elif word == "lambda":
            source.target = int(tokens[0])
        elif word == "inside":
            source.inside = (tokens[0], int(tokens[1]))
        elif word == "hole":
            source.hole = int(tokens[0])
        elif word in ("base", "short"):
            source.blocks.append(Block(tuple(map(read_point, tokens)), word == "short"))
    return source


def tokens_of(line: str) -> list[str]:
    """The tokens of a line of a source: a comment is none, and blanks are space, tab and carriage return alone."""
    return [token for token in line.split("#")[0].replace("\t", " ").replace("\r", " ").split(" ") if token]


def find_program() -> str:
    """The path of the program: the launcher says it, and without the launcher it lies where it is built."""
    root = Path(__file__).resolve().parent.parent
    stated = os.environ.get("WAKHTSIME_PROGRAM")
    for place in [Path(stated)] if stated else [root / "bin/df_main", root / "crates/df_main/out/df_main"]:
        if os.access(place, os.X_OK):
            return str(place)
    raise ToolError("the program isn't there: call this tool by ./wakhtsime, which builds it", NO_PROGRAM)


def run_program(words: list[str], text: str) -> tuple[int, str]:
    """The status that the program ends with, and what it prints."""
    done = subprocess.run([find_program(), *words], input=text.encode("latin-1"), stdout=subprocess.PIPE)
    return done.returncode, done.stdout.decode("latin-1")


def print_help(words: list[str], text: str) -> bool:
    """Prints a tool's help where the words ask for it."""
    if "--help" not in words and "-h" not in words:
        return False
    print(text.strip())
    return True


def say(tool: str, text: str) -> None:
    for line in text.splitlines():
        print(f"{tool}: {line}", file=sys.stderr)


def read_input(tool: str, kind: str) -> bytes:
    """Reads standard input to its end; where that is a terminal, it says what it waits for."""
    if sys.stdin.isatty():
        say(tool, f"reading {kind}: type its lines and then Ctrl-D, or put '< FILE' behind the words")
    return sys.stdin.buffer.read()


def run_tool(tool: str, main) -> int:
    """Runs what a tool does on its words. A fault is said on standard error, and is the status."""
    try:
        status = main(sys.argv[1:])
        sys.stdout.flush()
        return status
    except ToolError as error:
        say(tool, str(error))
        return error.status
    except BrokenPipeError:
        os.dup2(os.open(os.devnull, os.O_WRONLY), sys.stdout.fileno())
        return 5
    except KeyboardInterrupt:
        return 130
