#!/usr/bin/env python3
"""Writes a source from a list of blocks as Sage, GAP, a book or a paper prints it. No proof is claimed of this tool: 'verify' judges.

usage: ./wakhtsime import [--group N ..] [--lambda N] [--fixed N] [--from 1] < LIST

The list is brackets of any kind in each other, or a block a line. Points are numbers (Sage's 0, 1, 3), or as many numbers as the
group has factors ('(0,1)' or '0,1', or '01' where --group is given), or fixed points: inf, oo and \u221e, with a number behind where
there are several. '(mod 7)', 'Z_7', '(7,3,1)-difference family', 'lambda = 1', and Sage's '(7, 3, 1): {(7,): [..]}' are understood.

  --group N ..  the factors of the group, as --group 7 or --group 5 5
  --lambda N    in how many blocks two points lie together
  --fixed N     how many fixed points there are; where the list names none, the numbers behind the group's are taken as these
  --from 1      the list numbers the points from 1, as GAP does: 1 is subtracted from each number

What isn't given is told by the list, or is guessed where one choice alone makes the list a difference family. The blocks are stated
as 'short', whose translates count once: where no translation fixes a block, that is the same as 'base'.
"""
from __future__ import annotations

import sys
from collections import Counter
from dataclasses import dataclass
from math import prod
from typing import Iterator

from block_lists import (
    INFINITY, BlockList, Numbers, RawBlock, Unreadable, choose_group, possible_factors, read_blocks, read_list,
)
from wakhtsime_tools import (
    MOST_BLOCKS, MOST_FACTORS, MOST_FIXED, MOST_POINTS, MOST_SIZE, MOST_TARGET, USAGE,
    Block, Group, Point, ToolError, count_rows, name_of, name_points, order_of, print_help, read_input, run_tool, say, table_rows,
)

NAME = "import"


@dataclass
class Options:
    """What the words of the command line give."""

    group: Numbers | None = None
    target: int | None = None
    fixed: int | None = None
    first: int = 0


@dataclass
class Family:
    """The blocks of a list in a group."""

    group: Group
    fixed: int
    blocks: list[Block]
    target: int | None = None


def usage(reason: str) -> ToolError:
    return ToolError(f"{reason}; usage: import [--group N ..] [--lambda N] [--fixed N] [--from 1] < LIST, and --help tells more", USAGE)


def read_options(words: list[str]) -> Options:
    options, place = Options(), 0
    seen = set()
    while place < len(words):
        word = words[place]
        numbers = take_numbers(words, place + 1)
        if word in seen:
            raise usage(f"{word} comes twice")
        if word == "--group" and 1 <= len(numbers) <= MOST_FACTORS:
            options.group = tuple(numbers)
        elif word == "--lambda" and len(numbers) == 1 and numbers[0] <= MOST_TARGET:
            options.target = numbers[0]
        elif word == "--fixed" and len(numbers) == 1 and numbers[0] <= MOST_FIXED:
            options.fixed = numbers[0]
        elif word == "--from" and numbers in ([0], [1]):
            options.first = numbers[0]
        else:
            raise usage(f"'{' '.join(words[place : place + 1 + len(numbers)])}' is no option")
        seen.add(word)
        place += 1 + len(numbers)
    return options


def take_numbers(words: list[str], place: int) -> list[int]:
    """The numbers that stand from a place on, as '5 5' or '5,5'."""
    numbers = []
    for word in words[place:]:
        parts = word.split(",")
        if not all(part.isascii() and part.isdigit() and len(part) < 10 for part in parts):
            break
        numbers += map(int, parts)
    return numbers


class Placing:
    """Makes blocks of a group of what was read."""

    def __init__(self, group: Group, raw: list[RawBlock], options: Options):
        self.group, self.raw, self.options = group, raw, options
        used = [point - INFINITY for block in raw for point in block.points if isinstance(point, int)]
        self.step = 1 if 0 in used else 0
        self.fixed = max(used) + self.step if used else options.fixed or 0
        self.has_names = bool(used)

    def family(self) -> Family:
        options = self.options
        if options.fixed is not None and options.fixed < self.fixed:
            raise ToolError(f"the list names {self.fixed} fixed points, and --fixed says {options.fixed}")
        fixed = max(self.fixed, options.fixed or 0)
        if fixed > MOST_FIXED or self.group.order + fixed > MOST_POINTS:
            raise ToolError(f"the program takes {MOST_FIXED} fixed points and {MOST_POINTS} points at most")
        if not 1 <= len(self.raw) <= MOST_BLOCKS:
            raise ToolError(f"the list has {len(self.raw)} blocks, and the program takes 1 to {MOST_BLOCKS}")
        return Family(self.group, fixed, [self.block(block) for block in self.raw])

    def block(self, raw: RawBlock) -> Block:
        points = [self.point(point, raw.line) for point in raw.points]
        twice = [point for point, number in Counter(points).items() if number > 1]
        if twice:
            raise Unreadable(raw.line, f"the point {name_of(twice[0])} stands twice in a block of the group {self.group}")
        if not 2 <= len(points) <= MOST_SIZE:
            raise Unreadable(raw.line, f"a block has {len(points)} points, and the program takes 2 to {MOST_SIZE}")
        return Block(tuple(sorted(points, key=order_of)))

    def point(self, point, line: int) -> Point:
        if isinstance(point, int):
            return point - INFINITY + self.step
        residues = tuple(number - self.options.first for number in point)
        behind = residues[0] - self.group.order + 1
        if len(residues) == 1 and not self.has_names and 1 <= behind <= self.fixed:
            return behind
        if all(-factor < residue < factor for residue, factor in zip(residues, self.group.factors)):
            return tuple(residue % factor for residue, factor in zip(residues, self.group.factors))
        shown = ",".join(map(str, point))
        hint = "is it another group" if self.options.first else "is it another group, or does the list number points from 1 (--from 1)"
        raise Unreadable(line, f"{shown} is no point of the group {self.group}: {hint}?")


def target_of(family: Family) -> int | None:
    """The number that each row of the difference table has, or None where they differ."""
    found = count_rows(family.group, family.blocks)
    numbers = set()
    for row in table_rows(family.group, family.fixed):
        numbers.add(found[row])
    return numbers.pop() if len(numbers) == 1 and 0 not in numbers else None


def counted_target(family: Family) -> int | None:
    """The lambda that the pairs of points in all blocks allow, or None where no number fits."""
    points = family.group.order + family.fixed
    pairs = sum(block.translates(family.group) * len(block.points) * (len(block.points) - 1) for block in family.blocks)
    target, rest = divmod(pairs, points * (points - 1))
    return target if rest == 0 and target > 0 else None


def possible_groups(factors: int, most: int, before: Numbers = ()) -> Iterator[Numbers]:
    """The lists of so many factors with a product that isn't above a number."""
    if factors == 0:
        yield before
        return
    for factor in range(2, most + 1):
        yield from possible_groups(factors - 1, most // factor, (*before, factor))


def possible_families(found: BlockList, options: Options) -> Iterator[Family]:
    """The groups in which a list is a difference family, with what is given."""
    target = options.target if options.target is not None else found.target
    for factors in possible_factors(found):
        try:
            raw = read_blocks(found.nodes, factors)
        except Unreadable:
            continue
        for group in possible_groups(factors, MOST_POINTS):
            try:
                family = Placing(Group(group), raw, options).family()
            except ToolError:
                continue
            if found.parameters and found.parameters[0] != family.group.order + family.fixed:
                continue
            family.target = target_of(family)
            if family.target is not None and target in (None, family.target):
                yield family


def guess_group(found: BlockList, options: Options) -> Family:
    """The one group in which the list is a difference family."""
    families = list(possible_families(found, options))
    if len(families) == 1:
        return families[0]
    if not families:
        raise ToolError("the list is a difference family in no group that the program takes: if it is to be one, give --group")
    choices = [f"--group {family.group} (lambda {family.target})" for family in families]
    raise ToolError(f"the list is a difference family in {len(families)} groups: choose {' or '.join(choices[:8])}")


def known_group(found: BlockList, options: Options) -> tuple[Numbers, str] | None:
    """The group that is given or told, and by what."""
    if options.group:
        return options.group, "given"
    if found.group:
        return found.group, "told by the list"
    if found.parameters and possible_factors(found) == [1]:
        try:
            fixed = Placing(Group((found.parameters[0],)), read_blocks(found.nodes, 1), options).fixed
        except Unreadable:
            return None
        return (found.parameters[0] - fixed,), "told by the number of points"
    return None


def find_family(found: BlockList, options: Options, notes: list[str]) -> Family:
    """The family that a list states; what wasn't given is noted."""
    choose_group(found, options.group)
    known = known_group(found, options)
    if known is None:
        family = guess_group(found, options)
        notes.append(f"group {family.group}: guessed, as the only one in which the list is a difference family")
    else:
        factors, how = known
        check_group(factors)
        family = Placing(Group(factors), read_blocks(found.nodes, len(factors)), options).family()
        if how != "given":
            notes.append(f"group {family.group}: {how}")
    if found.parameters and found.parameters[0] != family.group.order + family.fixed:
        notes.append(f"the list speaks of {found.parameters[0]} points, and the source has {family.group.order + family.fixed}")
    family.target = find_target(family, found, options, notes)
    return family


def check_group(factors: Numbers) -> None:
    if not (1 <= len(factors) <= MOST_FACTORS and min(factors) >= 2 and prod(factors) <= MOST_POINTS):
        limits = f"1 to {MOST_FACTORS} factors from 2 on, with a product of at most {MOST_POINTS}"
        raise ToolError(f"the group {' '.join(map(str, factors))} isn't one of the program's: {limits}")


def find_target(family: Family, found: BlockList, options: Options, notes: list[str]) -> int:
    if options.target is not None:
        return options.target
    if found.target is not None:
        notes.append(f"lambda {found.target}: told by the list")
        return found.target
    target = target_of(family)
    if target is not None:
        notes.append(f"lambda {target}: guessed, since each difference comes as often")
        return target
    target = counted_target(family)
    if target is None:
        raise ToolError("not every difference comes as often, and no lambda fits the number of blocks: give --lambda")
    notes.append(f"lambda {target}: guessed by the number of blocks; but not every difference comes as often, as 'explain' shows")
    return target


def note_fixed(family: Family, options: Options, notes: list[str]) -> None:
    if options.fixed is None and family.fixed:
        notes.append(f"fixed {family.fixed}: told by the list")


def note_short(family: Family, notes: list[str]) -> None:
    """Says which blocks translations fix."""
    order = family.group.order
    for number, block in enumerate(family.blocks, 1):
        kept = len(block.stabilizer(family.group))
        if kept > 1:
            counted = f"it counts for {order // kept} blocks and not for {order}"
            notes.append(f"block {number} ({block}) is short: {kept} translations keep it, so {counted}")


def source_lines(family: Family) -> Iterator[str]:
    sizes = sorted({len(block.points) for block in family.blocks})
    if len(sizes) > 1:
        yield "version 2"
    yield f"group {family.group}"
    if family.fixed:
        yield f"fixed {family.fixed}"
    yield "k " + " ".join(map(str, sizes))
    yield f"lambda {family.target}"
    for block in family.blocks:
        yield f"short {name_points(block.points)}"


def main(words: list[str]) -> int:
    if print_help(words, __doc__):
        return 0
    options = read_options(words)
    try:
        text = read_input(NAME, "a list of blocks").decode()
    except UnicodeDecodeError:
        raise ToolError("the list isn't text in UTF-8") from None
    notes: list[str] = []
    family = find_family(read_list(text), options, notes)
    note_fixed(family, options, notes)
    note_short(family, notes)
    say(NAME, "\n".join(notes))
    print("\n".join(source_lines(family)))
    return 0


if __name__ == "__main__":
    sys.exit(run_tool(NAME, main))
