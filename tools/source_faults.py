"""Says in words what is wrong with a source: the line, the token and the rule. No proof is claimed of it: which line and which fault
it is, the program has said; the token is looked up here."""
from __future__ import annotations

import re
from dataclasses import dataclass, field
from math import gcd, lcm, prod

from wakhtsime_tools import (
    MOST_BLOCKS, MOST_FACTORS, MOST_FIXED, MOST_POINTS, MOST_SIZE, MOST_TARGET, Element, Point, name_of, tokens_of,
)

# how many tokens come behind each word, at least and at most
COUNTS = {
    "version": (1, 1), "group": (1, MOST_FACTORS), "fixed": (1, 1), "subgroup": (1, None), "shift": (1, 1), "mult": (1, None),
    "k": (1, 1), "lambda": (1, 1), "inside": (2, 2), "hole": (1, 1),
    "base": (0, None), "short": (0, None), "require": (0, None), "forbid": (0, None),
}
BLOCKS = ("base", "short", "require", "forbid")
ONLY_IN_VERSION_2 = ("require", "forbid")
RULES = {
    "BadWord": "a line begins with the word of a statement, and has as many tokens behind it as the statement wants",
    "BadNumber": "a number is decimal digits, with at most 64 bits",
    "BadElement": "an element is a residue for each factor, below it, with commas between and no blanks; the first fixed point is inf1",
    "Repeated": "this statement comes once",
    "UnknownName": "a subgroup is stated by a line 'subgroup' above, with its name and its generators; 'all' and 'none' are there from the start",
    "NameTaken": "each subgroup has a name of its own, and not 'all' or 'none'",
    "NotUnit": "a multiplier has no divisor but 1 in common with the exponent of the group",
    "PointTwice": "the points of a block are different",
    "BlockSize": "a block has as many points as the line 'k' says",
    "GroupRange": f"a group has 1 to {MOST_FACTORS} factors from 2 to {MOST_POINTS}, with a product of at most {MOST_POINTS}",
    "FixedRange": f"there are at most {MOST_FIXED} fixed points, and at most {MOST_POINTS} points",
    "SizeRange": f"a block has 2 to {MOST_SIZE} points, and no more than there are points above",
    "TargetRange": f"a target is at most {MOST_TARGET:,}",
    "TooManyBlocks": f"there are at most {MOST_BLOCKS:,} 'base' and 'short' lines, and as many 'require' and 'forbid' lines",
    "Missing group": "a source has a line 'group', as 'group 7', before all other statements",
    "Missing k": "a source has a line 'k', the number of points of a block, as 'k 3', before the blocks",
    "Missing lambda": "a source has a line 'lambda', as 'lambda 1': in how many blocks two points lie together",
}


@dataclass
class Above:
    """What the lines above a line state, as far as a line is judged by it."""

    factors: list[int] = field(default_factory=list)
    fixed: int = 0
    is_second: bool = False
    first_lines: dict[str, int] = field(default_factory=dict)

    @property
    def points(self) -> int:
        return prod(self.factors) + self.fixed


def read_above(lines: list[str]) -> Above:
    above = Above()
    for number, line in enumerate(lines, 1):
        word, *rest = tokens_of(line) or [""]
        if word == "version" and not above.first_lines:
            above.is_second = True
        if word == "group":
            above.factors = [int(token) for token in rest]
        if word == "fixed":
            above.fixed = int(rest[0])
        if word:
            above.first_lines.setdefault(word if word != "subgroup" else f"subgroup {rest[0]}", number)
    return above


def is_number(token: str) -> bool:
    return re.fullmatch("[0-9]+", token) is not None and int(token) < 2**64


def read_element(token: str, above: Above) -> Element | None:
    parts = token.split(",")
    if len(parts) != len(above.factors) or not all(map(is_number, parts)):
        return None
    residues = tuple(map(int, parts))
    return residues if all(residue < factor for residue, factor in zip(residues, above.factors)) else None


def read_block_point(token: str, above: Above) -> Point | None:
    if token.startswith("inf"):
        number = token[3:]
        return int(number) if is_number(number) and 1 <= int(number) <= above.fixed else None
    return read_element(token, above)


def find_token(tokens: list[str], fault: str, above: Above) -> int | None:
    """The place of the token that breaks the rule, or None where it is one that isn't there, or the whole line."""
    word, numbers = tokens[0], range(1, len(tokens))
    if fault == "BadWord":
        return find_bad_word(tokens, above)
    if fault == "BadNumber":
        return next((i for i in numbers if not (word == "inside" and i == 1) and not is_number(tokens[i])), 1)
    if fault == "BadElement":
        read = read_block_point if word in BLOCKS else read_element
        return next((i for i in numbers if not (word == "subgroup" and i == 1) and read(tokens[i], above) is None), None)
    if fault == "NotUnit":
        return next((i for i in numbers if gcd(int(tokens[i]), lcm(*above.factors)) > 1), None)
    if fault == "PointTwice":
        points = [read_block_point(token, above) for token in tokens]
        return next((i for i in numbers if points[i] in points[1:i]), None)
    if fault == "GroupRange":
        in_range = lambda i: i <= MOST_FACTORS and 2 <= int(tokens[i]) and prod(map(int, tokens[1 : i + 1])) <= MOST_POINTS
        return next((i for i in numbers if not in_range(i)), None)
    if fault == "SizeRange":
        return next((i for i in numbers if not 2 <= int(tokens[i]) <= min(MOST_SIZE, above.points)), None)
    if fault in ("UnknownName", "NameTaken", "FixedRange"):
        return 1
    if fault == "TargetRange":
        return len(tokens) - 1
    return None


def find_bad_word(tokens: list[str], above: Above) -> int | None:
    word, rest = tokens[0], tokens[1:]
    is_there = word in COUNTS and not (word == "version" and above.first_lines)
    if not is_there or (word in ONLY_IN_VERSION_2 and not above.is_second):
        return 0
    if word in ("subgroup", "shift", "inside") and rest and not re.fullmatch("[A-Za-z][A-Za-z0-9_]{0,15}", rest[0]):
        return 1
    _, most = COUNTS[word]
    if word == "k" and above.is_second:
        most = None
    return None if most is None or len(rest) <= most else most + 1


def hint_for(tokens: list[str], place: int | None, fault: str, above: Above) -> str:
    """What would help, for faults that come often."""
    word = tokens[0]
    token = tokens[place] if place is not None else ""
    if word.startswith("\xef\xbb\xbf"):
        return "The file begins with a byte order mark: save it as UTF-8 without one."
    if word == "version":
        return "Version 1 has no such line; 'version 2' is the first line of a source with several block sizes, 'require' or 'forbid'."
    if fault == "BadWord" and place == 0 and word in ONLY_IN_VERSION_2:
        return "'require' and 'forbid' are of version 2: make 'version 2' the first line."
    if fault == "BadWord" and place == 0:
        return f"The statements are {', '.join(COUNTS)}. './wakhtsime import' makes a source of a list of blocks."
    if fault == "BadWord" and word == "k" and place:
        return "Several block sizes are of version 2: make 'version 2' the first line."
    if fault == "BadElement":
        return hint_for_element(token, above)
    if fault == "Repeated":
        return f"It stands above in line {above.first_lines[word]}."
    if fault == "BlockSize":
        return f"The line has {len(tokens) - 1} points. Where blocks have several sizes, 'version 2' is the first line and 'k' has them all."
    if fault == "NameTaken" and f"subgroup {token}" in above.first_lines:
        return f"It stands above in line {above.first_lines[f'subgroup {token}']}."
    if fault == "NotUnit":
        return f"The exponent of the group is {lcm(*above.factors)}."
    if fault.startswith("Missing"):
        return f"The line has to stand above this one, of '{word}'."
    return ""


def hint_for_element(token: str, above: Above) -> str:
    group = " ".join(map(str, above.factors))
    if token.lower() in ("inf", "oo", "\xe2\x88\x9e", "infinity"):
        return "A fixed point has a number behind it, as inf1."
    if token.startswith("inf"):
        return f"The lines above state {above.fixed} fixed points: 'fixed' comes before the blocks."
    parts = token.split(",")
    if all(map(is_number, parts)) and len(parts) != len(above.factors):
        return f"The group {group} has {len(above.factors)} factors, and the token {len(parts)} numbers."
    if all(map(is_number, parts)):
        return f"The residues of the group {group} begin with 0 and are below the factors."
    return "'./wakhtsime import' makes a source of a list of blocks."


def fault_lines(text: str, number: int, fault: str) -> list[str]:
    """The line, the token and the rule, in words."""
    lines = text.split("\n")
    said = [f"The source is refused: {fault}" + (f" in line {number}." if number else " at its end.")]
    rule = f"The rule: {RULES.get(fault, 'docs/LANGUAGE.md has it')}."
    if number == 0:
        return [*said, rule]
    line = lines[number - 1]
    tokens = tokens_of(line)
    above = read_above(lines[: number - 1])
    place = find_token(tokens, fault, above)
    said.append(f"The line: {line.strip()}")
    if place is not None:
        said.append(f"The token: '{tokens[place]}', number {place + 1} of the line.")
    elif fault in ("BadWord", "BadNumber"):
        said.append("The token: one that is missing at the end of the line.")
    hint = hint_for(tokens, place, fault, above)
    return [*said, rule] + ([hint] if hint else [])
