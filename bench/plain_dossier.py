"""Dossiers and chains of them, by the rules of their lines alone.

Part of plain.py. What is read of a line is judged by its form first, and then, for `check`, by what it says.
"""
import re

from plain_source import Fault, lines_of, number, problem_of, tokens

MOST_SMALL = 1 << 32
MOST_WEIGHT = 1000
MOST_ROWS_OF_A_CUT = 16


class Refused(Exception):
    """An input is refused: the status and the text of the answer."""


def bad_form(line, fault):
    raise Refused(3, f"dossier refused line {line} {fault}")


def wrong(line, fault):
    raise Refused(1, f"refused line {line} {fault}")


# The forms of single lines

def path_of(rest):
    """The path of some tokens: its length and its yes columns; None where they aren't one."""
    numbers = [number(token, MOST_SMALL) for token in rest]
    if not numbers or None in numbers:
        return None
    length, *chosen = numbers
    increasing = all(a < b for a, b in zip(chosen, chosen[1:] + [length]))
    return (length, chosen) if increasing else None


def cut_of(rest):
    """The rows and weights of a cut, or None."""
    if len(rest) % 2 or not 1 <= len(rest) // 2 <= MOST_ROWS_OF_A_CUT:
        return None
    pairs = []
    for weight, row in zip(rest[::2], rest[1::2]):
        size, row = number(weight.removeprefix("-")), number(row, MOST_SMALL)
        if size is None or row is None or not 1 <= size <= MOST_WEIGHT or pairs and row <= pairs[-1][1]:
            return None
        pairs.append((-size if weight.startswith("-") else size, row))
    return pairs


def entry_of(found, plain):
    """The entry of a line by its tokens: a word and numbers; None where it isn't an entry line of these rules."""
    word, rest = found[0], found[1:]
    if word == "settled":
        return None if rest else (word,)
    if word == "cut" and not plain:
        pairs = cut_of(rest)
        return pairs and (word, pairs)
    numbers = [number(token, MOST_SMALL) for token in rest]
    if None in numbers:
        return None
    if word in ("branch", "over", "under") and len(numbers) == 1:
        return (word, numbers[0])
    if word == "residue" and not plain and len(numbers) == 2 and numbers[1] >= 2:
        return (word, *numbers)
    return None


def design_of(problem, rest):
    """The blocks of a design line, or None."""
    if not rest:
        return []
    blocks = [[]]
    for token in rest:
        if token == ";":
            blocks.append([])
        else:
            blocks[-1].append(problem.point(token))
    fits = lambda b: None not in b and len(b) in problem.sizes and all(p < q for p, q in zip(b, b[1:]))
    return [tuple(b) for b in blocks] if all(map(fits, blocks)) else None


def end_of(found):
    """Whether an end line is finished, and its path where it isn't; None where it isn't an end line."""
    text = " ".join(found)
    if re.fullmatch("end (finished designs [0-9]+ nodes [0-9]+|spent designs [0-9]+ nodes [0-9]+ next .*)", text) is None:
        return None
    if number(found[3]) is None or number(found[5]) is None:
        return None
    if found[1] == "finished":
        return (True, None)
    path = path_of(found[7:])
    return path and (False, path)


# Whole inputs

class Dossiers:
    """The lines of an input with what was awaited at them. One that reads them says what it does with each part."""

    def __init__(self, data, steps):
        self.steps = steps
        self.lines = list(enumerate(lines_of(data), 1))
        self.at = 0

    def next(self):
        """The number and the tokens of the next line with tokens; the number is 0 at the end of the input."""
        while self.at < len(self.lines):
            place, line = self.lines[self.at]
            self.at += 1
            found = tokens(line)
            self.steps.take(1 + len(found))
            if found:
                return place, found
        return 0, []

    def head(self):
        """Whether the rules are the plain ones. The first line is wanted here; None where the input has ended."""
        place, found = self.next()
        if place == 0:
            return None
        if found not in (["dossier", "1"], ["dossier", "2"]):
            bad_form(place, "BadHead")
        return found[1] == "1"

    def count(self):
        """The number of the `source` line, and what it says."""
        place, found = self.next()
        count = number(found[1]) if len(found) == 2 and found[0] == "source" else None
        if not count:
            bad_form(place, "BadHead")
        return place, count

    def source_lines(self, count):
        """The number and the bytes of each line of the source; the input may end among them."""
        for _ in range(count):
            if self.at == len(self.lines):
                bad_form(0, "BadHead")
            self.at += 1
            yield self.lines[self.at - 1]

    def problem(self, place, count):
        """The problem that the lines of the source state, `place` being the number of the `source` line."""
        if count > len(self.lines) - self.at:
            bad_form(0, "BadHead")
        source = list(self.source_lines(count))
        try:
            return problem_of([line for _, line in source], self.steps), [line for _, line in source]
        except Fault as fault:
            line, text = fault.args
            bad_form(source[line - 1][0] if line else place, "BadSource " + text)

    def start(self):
        """The number of the `from` line and its path."""
        place, found = self.next()
        path = path_of(found[1:]) if found[:1] == ["from"] else None
        if path is None:
            bad_form(place, "BadHead")
        return place, path

    def log(self, problem, plain):
        """The lines of the log and the end line: for each its number, its word and what it has."""
        while True:
            place, found = self.next()
            if place == 0:
                bad_form(0, "BadEnd")
            if found[0] == "design":
                value, fault = design_of(problem, found[1:]), "BadDesign"
            elif found[0] == "end":
                value, fault = end_of(found), "BadEnd"
            else:
                value, fault = entry_of(found, plain), "BadEntry"
            if value is None:
                bad_form(place, fault)
            yield place, found[0], value
            if found[0] == "end":
                return


def read_spent(data, steps):
    """The problem, the rules and the path of a dossier that ended spent; raises Refused."""
    dossiers = Dossiers(data, steps)
    plain = dossiers.head()
    if plain is None:
        bad_form(0, "BadHead")
    problem, _ = dossiers.problem(*dossiers.count())
    dossiers.start()
    *_, (place, _, (finished, path)) = dossiers.log(problem, plain)
    if finished:
        bad_form(place, "NotSpent")
    place, _ = dossiers.next()
    if place:
        bad_form(place, "Trailing")
    return problem, plain, path
