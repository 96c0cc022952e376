"""Reads lists of blocks as people have them: Sage's, GAP's, those of books and papers. No proof is claimed of it.

A list is brackets of any kind in each other, or a block a line. What the number of factors is has to be known, or is tried: '(0,1)'
is a block of two points where the group has one factor, and a point where it has two. So a text is read into a tree first, and
the tree is read into blocks for a number of factors.
"""
from __future__ import annotations

import re
from dataclasses import dataclass, field
from typing import Iterator, Union

from wakhtsime_tools import MOST_FACTORS, ToolError

OPENING, CLOSING = "([{<", ")]}>"
INFINITY = 10**9  # a fixed point is this number and its own, until the blocks are whole

# What is the same in other spellings. No pattern takes a line feed away.
SPELLINGS = [
    (r"^\ufeff", ""),
    (r"^[ \t]*(?:sage:|gap>|>>>)[^][(){}\n]*$", " "),
    (r"^[ \t]*(?:sage:|gap>|>>>)", " "),
    (r"[#%].*", ""),
    (r"^[ \t]*\d+\.[ \t]", " "),
    (r"[\u2212\u2013\u2014]", "-"),
    ("[\u27e8\u2329\u3008]", "<"),
    ("[\u27e9\u232a\u3009]", ">"),
    (r"\\(pmod|mod)\b", " mod "),
    (r"\\times\b|\u00d7|\u2295|\\oplus\b", " x "),
    (r"\\math(?:bb|rm|bf)[ \t]*\{([ZC])\}", r"\1"),
    (r"\\mathbb|\\mathrm|\\rm|\\left|\\right|\\quad|\\qquad|\\bmod", " "),
    (r"\\infty|\u221e|\+?\binfinity\b|\binf(?=\b|_|\d)|\boo(?=\b|_|\d)", "\u221e"),
    (r"\\lambda|\u03bb", "lambda"),
    (r"[$\\&~|]", " "),
    (r"\"([^\",\n]*)\"|'([^',\n]*)'", r"\1\2"),
    (r"\"([^\"\n]*)\"|'([^'\n]*)'", r"(\1\2)"),
]
NUMBERS = r"\d+(?:[ \t]*[,x][ \t]*\d+)*"
CYCLIC = r"(?:\b[ZC][ \t]*_?[ \t]*|\u2124_?|Z/)[({]?[ \t]*(\d+)[ \t]*[)}]?(?:Z\b)?(?:\^\{?(\d+)\}?)?"
GROUPS = [
    r"Ring of integers modulo (\d+)",
    r"Finite Field of size (\d+)",
    rf"\(?[ \t]*\bmod(?:ulo)?[ \t]*[({{]?[ \t]*({NUMBERS})[ \t]*[)}}]?[ \t]*\)?",
    r"(?:Additive abelian group isomorphic to )?" + CYCLIC + r"(?:[ \t]*(?:x|\+)[ \t]*" + CYCLIC + ")*",
]
LAMBDA = r"\blambda[ \t]*=[ \t]*(\d+)"
PARAMETERS = r"\(?\(?[ \t]*v[ \t]*,[ \t]*k[ \t]*,[ \t]*(?:lambda|l)[ \t]*\)?[ \t]*=[ \t]*(?=\()"
TRIPLE = r"\([ \t]*(\d+)[ \t]*,[ \t]*(\d+)[ \t]*,[ \t]*(\d+)[ \t]*\)[ \t]*-?(?=[ \t]*(?:-|cyclic|difference|DF|DS|BIBD|design))"
WORDS = set(
    "a an and are base block blocks cyclic design designs difference df ds bibd families family has in initial is of over set sets"
    " starter the with".split()
)
NAMES = r"^[ \t,]*[A-Za-z]\w*(?:_?\{?\d*\}?)[ \t]*(?::=|=|:)"
TOKENS = re.compile(
    r"(?P<blank>[ \t\r\f\v]+)|(?P<line>\n)|(?P<point>-?\d+(?:,-?\d+)*|\u221e(?:_?\{\d+\}|_?\d+)?)"
    r"|(?P<mark>[][(){}<>,;:.])|(?P<bad>\S[^\s,;)\]}]*)"
)


@dataclass
class Leaf:
    """A token of points: '5', '0,1,3' or a fixed point."""

    text: str
    line: int

    def numbers(self) -> list[int]:
        if self.text[0] == "\u221e":
            return [INFINITY + int(re.sub(r"\D", "", self.text) or 1)]
        return [int(number) for number in self.text.split(",")]


@dataclass
class Bracket:
    """What stands between two brackets, with the numbers of its key, as '(13,): [..]' has one."""

    kind: str
    line: int
    nodes: list[Node] = field(default_factory=list)
    key: list[int] | None = None


@dataclass
class Key(Bracket):
    """A key, until the bracket behind it is read."""


@dataclass
class Break:
    """An end of a line, or a semicolon, outside of brackets."""

    text: str
    line: int


Node = Union[Leaf, Bracket, Break]
Numbers = tuple[int, ...]


@dataclass
class BlockList:
    """A list that was read: its tree, and what the text says of the group and of lambda."""

    nodes: list[Node]
    group: Numbers | None = None
    is_by_group: bool = False
    parameters: Numbers | None = None
    target: int | None = None


@dataclass
class RawBlock:
    """A block for a number of factors: its points are tuples of numbers, or numbers from INFINITY on."""

    points: list[Union[Numbers, int]]
    line: int


class Unreadable(ToolError):
    """A list that can't be read, with the line."""

    def __init__(self, line: int, text: str):
        super().__init__(f"line {line}: {text}")


def read_list(text: str) -> BlockList:
    """Reads the tree of a list, and what is said around it."""
    for pattern, other in SPELLINGS:
        text = re.sub(pattern, other, text, flags=re.MULTILINE | re.IGNORECASE)
    found = BlockList([])
    text = take_group(found, text)
    text = take_numbers(found, text)
    text = re.sub(NAMES, " ", text, flags=re.MULTILINE)
    found.nodes = take_keys(found, read_tree(text))
    return found


def take_group(found: BlockList, text: str) -> str:
    """Takes the words that name a group out of the text; all of them have to name the same."""
    for pattern in GROUPS:
        for match in list(re.finditer(pattern, text)):
            factors = read_factors(match)
            if found.group not in (None, factors):
                reason = f"'{match.group().strip()}' is another group than before: import one family at a time"
                raise Unreadable(line_at(text, match), reason)
            found.group = factors
        text = re.sub(pattern, " ", text)
    return text


def read_factors(match: re.Match) -> Numbers:
    factors = []
    for part in re.finditer(CYCLIC, match.group()):
        factors += [int(part.group(1))] * int(part.group(2) or 1)
    return tuple(factors) or tuple(int(number) for number in re.findall(r"\d+", match.group()))


def take_numbers(found: BlockList, text: str) -> str:
    """Takes the parameters (v, k, lambda) and lambda out of the text."""
    text = re.sub(PARAMETERS, " ", text)
    for pattern in (TRIPLE, LAMBDA):
        match = re.search(pattern, text)
        if match:
            numbers = tuple(int(number) for number in match.groups())
            found.target = numbers[-1]
            found.parameters = numbers if len(numbers) == 3 else found.parameters
        text = re.sub(pattern, " ", text)
    return text


def line_at(text: str, match: re.Match) -> int:
    return text.count("\n", 0, match.start()) + 1


def read_tree(text: str) -> list[Node]:
    """Reads brackets in each other. Commas say nothing more than blanks do, but at the ends of lines."""
    stack, line = [Bracket("", 1)], 1
    comma = False
    for match in TOKENS.finditer(text):
        kind, token = match.lastgroup, match.group()
        nodes = stack[-1].nodes
        if kind == "bad" and (len(stack) > 1 or token.strip("-.:=").lower() not in WORDS):
            raise Unreadable(line, f"'{token}' is no point, bracket or number")
        if kind == "line":
            if len(stack) == 1 and not comma:
                nodes.append(Break("line", line))
            line += 1
        elif kind == "point":
            nodes.append(Leaf(token, line))
        elif kind == "mark" and token in OPENING:
            stack.append(Bracket(token, line))
        elif kind == "mark" and token in CLOSING:
            close(stack, token, line)
        elif token == ";" and len(stack) == 1:
            nodes.append(Break(";", line))
        elif token == ":":
            read_key(nodes, line)
        if kind != "blank" and kind != "line":
            comma = token == ","
    if len(stack) > 1:
        raise Unreadable(stack[-1].line, f"'{stack[-1].kind}' is never closed")
    return stack[0].nodes


def close(stack: list[Bracket], token: str, line: int) -> None:
    if len(stack) == 1 or OPENING.index(stack[-1].kind) != CLOSING.index(token):
        raise Unreadable(line, f"'{token}' closes no bracket")
    bracket = stack.pop()
    before = stack[-1].nodes
    if before and isinstance(before[-1], Key):
        bracket.key = before.pop().key
    before.append(bracket)


def read_key(nodes: list[Node], line: int) -> None:
    """Makes a key of what stands before a colon. One that comes behind words alone says nothing."""
    if not nodes or isinstance(nodes[-1], Break):
        return
    numbers = flat(nodes.pop())
    if numbers is None:
        raise Unreadable(line, "':' comes behind no number and no bracket")
    nodes.append(Key("", line, key=numbers))


def take_keys(found: BlockList, nodes: list[Node]) -> list[Node]:
    """Takes '(v, k, lambda): {(13,): [..]}' and 'label: block' apart."""
    left = [node for node in nodes if not isinstance(node, Key)]
    keyed = [node for node in left if isinstance(node, Bracket) and node.key and len(node.key) == 3 and is_dictionary(node)]
    if len(keyed) > 1:
        raise Unreadable(keyed[1].line, "a second family begins: import one at a time")
    if keyed:
        found.parameters, found.target = tuple(keyed[0].key), keyed[0].key[2]
    dictionaries = [node for node in left if is_dictionary(node)]
    if len(dictionaries) == 1:
        found.is_by_group = True
        left = [inner for node in left for inner in (node.nodes if node is dictionaries[0] else [node])]
    return left


def is_dictionary(node: Node) -> bool:
    return isinstance(node, Bracket) and node.kind == "{" and any(isinstance(inner, Bracket) and inner.key for inner in node.nodes)


def choose_group(found: BlockList, group: Numbers | None) -> None:
    """Of a list with a key for each group it leaves the part of one, and the key says the group."""
    if not found.is_by_group:
        return
    keyed = [node for node in found.nodes if isinstance(node, Bracket) and node.key]
    chosen = [node for node in keyed if group is None or tuple(node.key) == group]
    if len(chosen) != 1:
        names = ", ".join(" ".join(map(str, node.key)) for node in keyed)
        raise ToolError(f"the list has families for the groups {names}: choose one by --group")
    found.group = tuple(chosen[0].key)
    found.nodes = chosen


def flat(node: Node) -> list[int] | None:
    """The numbers of a token, or of a bracket that holds tokens alone."""
    if isinstance(node, Leaf):
        return node.numbers()
    if isinstance(node, Bracket) and all(isinstance(inner, Leaf) for inner in node.nodes):
        return [number for inner in node.nodes for number in inner.numbers()]
    return None


def depth(node: Node) -> int:
    return 1 + max(map(depth, node.nodes), default=0) if isinstance(node, Bracket) else 0


def point_of(node: Node, factors: int) -> Union[Numbers, int, None]:
    """The point that a node is, or None."""
    numbers = flat(node)
    if numbers is None or isinstance(node, Break):
        return None
    if len(numbers) == 1 and numbers[0] >= INFINITY:
        return numbers[0]
    if any(number >= INFINITY for number in numbers):
        return None
    if len(numbers) == factors:
        return tuple(numbers)
    digits = node.text if isinstance(node, Leaf) else ""
    return tuple(map(int, digits)) if factors > 1 and len(digits) == factors and digits.isdigit() else None


def read_blocks(nodes: list[Node], factors: int) -> list[RawBlock]:
    """The blocks of a list, for a number of factors."""
    nodes = list(spread(nodes, factors))
    parts: list[list[Node]] = [[]]
    for node in nodes:
        if isinstance(node, Break):
            parts.append([])
        else:
            parts[-1].append(node)
    return [block for part in parts for block in read_part(part, factors)]


def spread(nodes: list[Node], factors: int) -> Iterator[Node]:
    """Makes '0,1,3' three points where it isn't one."""
    for node in nodes:
        if isinstance(node, Leaf) and "," in node.text and len(node.numbers()) != factors:
            yield from (Leaf(text, node.line) for text in node.text.split(","))
        else:
            yield node


def read_part(nodes: list[Node], factors: int) -> Iterator[RawBlock]:
    """The blocks of a line, or of what stands between two brackets."""
    points = [point_of(node, factors) for node in nodes]
    if not nodes:
        return
    if None not in points:
        yield RawBlock(points, nodes[0].line)
    elif all(point is None and isinstance(node, Bracket) for node, point in zip(nodes, points)):
        for node in nodes:
            yield from read_part(list(spread(node.nodes, factors)), factors)
    else:
        wrong = next(node for node, point in zip(nodes, points) if point is None)
        shown = f"'{wrong.text}'" if isinstance(wrong, Leaf) else "a bracket"
        raise Unreadable(wrong.line, f"{shown} is no point of a group with {factors} factor{'s' if factors > 1 else ''}")


def possible_factors(found: BlockList) -> list[int]:
    """The numbers of factors that points of the list may have, where no group is stated."""
    deepest = max((depth(node) for node in found.nodes), default=0)
    lengths = {1} if deepest < 3 else set()
    waiting = list(found.nodes)
    while waiting:
        node = waiting.pop()
        numbers = flat(node)
        if isinstance(node, Bracket):
            waiting += node.nodes
        if numbers and (isinstance(node, Bracket) or "," in node.text) and numbers[0] < INFINITY:
            lengths.add(len(numbers))
    return sorted(length for length in lengths if length <= MOST_FACTORS)
