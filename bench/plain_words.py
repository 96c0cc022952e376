"""The words of the command line: which are a command line, and the first word that is in none.

Part of plain.py.
"""
from plain_source import number

MOST_BUDGET = 1000000000000000
MOST_WORKLOAD = 20
OPTIONS = {
    "solve": ("--budget", "--log", "--blocks", "--json"),
    "resume": ("--budget", "--log", "--blocks"),
    "mixed": ("--table",),
}
COMMANDS = ("show", "table", "verify", "orbits", "matrix", "solve", "resume", "check", "workload")


class Usage(Exception):
    """The number of the word at fault."""


def in_bounds(word, most):
    value = number(word)
    return value is not None and 1 <= value <= most


def options_of(words, allowed):
    """What is missing at the end of some options (a truth value), or None where no options begin with these words."""
    seen, wants_number = [], False
    for word in words:
        if wants_number:
            if not in_bounds(word, MOST_BUDGET):
                return None
            wants_number = False
            continue
        if word not in allowed or word in seen or {word, *seen}.issuperset(("--log", "--json")):
            return None
        seen.append(word)
        wants_number = word == "--budget"
    return wants_number


def missing(words, commands):
    """Whether a word is missing at the end, or None where no command line begins with these words."""
    if not words:
        return True
    command, rest = words[0], words[1:]
    if command not in commands:
        return None
    if command == "workload":
        if rest and not in_bounds(rest[0], MOST_WORKLOAD):
            return None
        return None if len(rest) > 1 else not rest
    return options_of(rest, OPTIONS.get(command, ()))


def judge(words, later=()):
    """Raises Usage where the words aren't a command line. `later` are commands that a program needn't have."""
    for count in range(1, len(words) + 1):
        if missing(words[:count], COMMANDS + tuple(later)) is None:
            raise Usage(count)
    if missing(words, COMMANDS + tuple(later)):
        raise Usage(len(words) + 1)
