"""Forges logs: every line of some logs with one token left out, put in or put in another's place, in every way that a list of tokens
allows, and the lines of each log left out, twice, or exchanged with the next one.

Forgeries are made one by one, and none is kept.
"""
from fuzz_make import joined
from plain import answer
from plain_matrix import Matrix
from plain_source import Steps, problem_of

WORDS = ("branch", "over", "under", "settled", "residue", "cut", "design", "end", ";", "from", "dossier", "source")
ENDS = ("finished", "spent", "designs", "nodes", "next")
STATEMENTS = ("version", "group", "fixed", "subgroup", "shift", "mult", "k", "lambda", "inside", "hole", "base", "short", "require", "forbid",
              "all", "none")
EDGES = ("-1", "-2", "1000", "1001", "-1000", "-1001", "007", "4294967295", "4294967296", "18446744073709551615", "18446744073709551616", "x", "inf0")
LOGS = {
    "two designs": ["group 7 / k 3 / lambda 1"],
    "a fixed point": ["group 8 / fixed 1 / k 3 / lambda 1"],
    "a residue": ["group 7 / mult 6 / k 3 / lambda 3"],
    "two sizes": ["version 2 / group 6 / k 2 3 / lambda 1 / require 0 2 4"],
    "two factors": ["group 2 2 / k 3 / lambda 2"],
    "no design": ["group 9 / k 3 / lambda 1"],
    "three dossiers": ["group 7 / k 3 / lambda 1", "2", "1"],
}
CUT = """dossier 2 / source 4 / group 7 / mult 6 / k 3 / lambda 3 / from 0 / branch 1 / branch 0 / over 0 / residue 1 2 / branch 0 / branch 2 / branch 3 /
settled / design 0 1 2 ; 0 1 4 ; 0 2 4 / under 1 / under 0 / cut 3 0 1 1 -1 2 / end finished designs 1 nodes 6"""


def solved(source, budgets):
    """The lines of the texts of `solve --log` and as many runs of `resume --log`, the last one to the end."""
    data, lines, command = joined(source.split(" / ")), [], "solve"
    for budget in (*budgets, "1000"):
        _, data = answer([command, "--log", "--budget", budget], data, Steps())
        lines += data.decode().split("\n")[:-1]
        command = "resume"
    return lines


def logs():
    """The logs that are forged: for each its name and its lines."""
    for name, (source, *budgets) in LOGS.items():
        yield name, solved(source, budgets)
    yield "a cut", " ".join(CUT.split("\n")).split(" / ")


def source_lines(lines):
    """The places of the first source's lines."""
    return range(2, 2 + int(lines[1].split()[1]))


def tokens_for(lines):
    """All tokens that are tried in a log: words, points, and numbers up to one that no row or column has."""
    problem = problem_of([lines[place].encode() for place in source_lines(lines)], Steps())
    matrix = Matrix(problem, Steps())
    numbers = range(max(len(matrix.targets), len(matrix.columns), problem.points) + 2)
    tokens = [*WORDS, *ENDS, *STATEMENTS, *EDGES, *map(str, numbers), *map(problem.point_text, range(problem.points))]
    return list(dict.fromkeys(tokens))


def forged_lines(line, tokens):
    """A line with one token left out, put in, or put in another's place."""
    found = line.split()
    for place in range(len(found) + 1):
        for token in tokens:
            yield found[:place] + [token] + found[place:]
        if place < len(found):
            yield found[:place] + found[place + 1:]
            for token in tokens:
                yield found[:place] + [token] + found[place + 1:]


def forgeries():
    """The name and the bytes of each forgery."""
    for name, lines in logs():
        yield name, joined(lines)
        tokens = tokens_for(lines)
        for place, line in enumerate(lines):
            title = f"{name} line {place + 1}"
            yield title, joined(lines[:place] + lines[place + 1:])
            yield title, joined(lines[:place] + [line] + lines[place:])
            yield title, joined(lines[:place] + lines[place + 1:place + 2] + [line] + lines[place + 2:])
            for number, found in enumerate(forged_lines(line, tokens)):
                yield f"{title} forgery {number}", joined(lines[:place] + [" ".join(found)] + lines[place + 1:])
