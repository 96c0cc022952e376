"""Reads sources, developments and dossiers for the tools of this folder.

No proof is claimed of what stands here. The lines come from the program, whose answers are proved; that they are read well is
tested (tests/test_convert.py). Nothing here judges a source: that is the program's work, and its canonical lines are read.
"""
import functools
import itertools
import math
import os
import subprocess
import sys
from dataclasses import dataclass
from pathlib import Path

NO_PROOF = "No proof is claimed of this tool; the program that it calls is proved."
ROOT = Path(__file__).resolve().parent.parent
STATUS_REFUSED, STATUS_USAGE, STATUS_BAD_INPUT, STATUS_WRITE_FAILED, STATUS_NO_PROGRAM = 1, 2, 3, 5, 9
FINISHED, SPENT = "finished", "spent"


class Refusal(Exception):
    """Why a tool has no answer: the words for standard error, and the status to end with."""

    def __init__(self, status, words):
        super().__init__(words)
        self.status = status


@dataclass(frozen=True)
class Problem:
    """What a source states, read from its canonical lines. Points are numbers: the elements in order, then the fixed points."""
    lines: tuple
    factors: tuple
    fixed: int
    shifts: tuple
    multipliers: tuple
    base_blocks: tuple

    @functools.cached_property
    def points(self):
        """The names of the points, in order."""
        elements = itertools.product(*map(range, self.factors))
        return [element_name(element) for element in elements] + [f"inf{number + 1}" for number in range(self.fixed)]

    @functools.cached_property
    def numbers(self):
        """The number of each name of a point."""
        return {name: number for number, name in enumerate(self.points)}


@dataclass(frozen=True)
class Design:
    """A list of blocks, each an increasing tuple of numbers of points; the blocks increase, and a block may come again."""
    problem: Problem
    blocks: tuple


@dataclass(frozen=True)
class Dossier:
    """One dossier: its source's lines, the base blocks of each of its designs as names of points, and its end."""
    source: tuple
    designs: tuple
    end: str
    nodes: int
    path: tuple


# The program

def program_path():
    """Where the program is: as the environment says, or where the launcher keeps it, or where the kit builds it."""
    told = os.environ.get("WAKHTSIME_PROGRAM")
    if told:
        return told
    for place in (ROOT / "bin" / "df_main", ROOT / "crates" / "df_main" / "out" / "df_main"):
        if os.access(place, os.X_OK):
            return str(place)
    raise Refusal(STATUS_NO_PROGRAM, "the program isn't built: ./wakhtsime help builds it, or set WAKHTSIME_PROGRAM to its path")


def run_program(words, text):
    """The status and the text of one call of the program."""
    try:
        call = subprocess.run([program_path(), *words], input=text, stdout=subprocess.PIPE, encoding="utf-8", errors="surrogateescape")
    except OSError as fault:
        raise Refusal(STATUS_NO_PROGRAM, f"the program can't be run: {fault}") from fault
    return call.returncode, call.stdout


def answer_of(words, text):
    """The text of a call that is done; else a refusal with the program's first line and status."""
    status, answer = run_program(words, text)
    if status != 0:
        first = answer.split("\n", 1)[0] or f"the program ended with status {status}"
        raise Refusal(status, first)
    return answer


# Lines

def statements(text):
    """The tokens of each line that has some."""
    for line in text.split("\n"):
        tokens = line.split("#", 1)[0].split()
        if tokens:
            yield tokens


def element_name(element):
    return ",".join(map(str, element))


def element_of(token):
    return tuple(int(residue) for residue in token.split(","))


def is_dossier(text):
    return next(statements(text), ["nothing"])[0] == "dossier"


# Sources

def sum_of(factors, left, right):
    return tuple((one + other) % factor for one, other, factor in zip(left, right, factors))


def generated(factors, generators):
    """The elements of the subgroup that some elements generate."""
    members = {(0,) * len(factors)}
    waiting = list(members)
    while waiting:
        member = waiting.pop()
        for generator in generators:
            found = sum_of(factors, member, generator)
            if found not in members:
                members.add(found)
                waiting.append(found)
    return tuple(sorted(members))


def products(exponent, multipliers):
    """The products of multipliers, modulo the exponent of the group."""
    found = {1 % exponent}
    waiting = list(found)
    while waiting:
        factor = waiting.pop()
        for multiplier in multipliers:
            product = factor * multiplier % exponent
            if product not in found:
                found.add(product)
                waiting.append(product)
    return tuple(sorted(found))


def problem_of(canonical):
    """The problem of canonical lines, as 'show' prints them and dossiers have them."""
    factors, fixed, shift, multipliers, base_blocks, subgroups = (), 0, "all", (), [], {}
    for word, *tokens in statements(canonical):
        if word == "group":
            factors = tuple(map(int, tokens))
            subgroups = {"none": generated(factors, []), "all": tuple(itertools.product(*map(range, factors)))}
        elif word == "fixed":
            fixed = int(tokens[0])
        elif word == "subgroup":
            subgroups[tokens[0]] = generated(factors, [element_of(token) for token in tokens[1:]])
        elif word == "shift":
            shift = tokens[0]
        elif word == "mult":
            multipliers = tuple(map(int, tokens))
        elif word in ("base", "short"):
            base_blocks.append((word, tuple(tokens)))
    lines = tuple(line for line in canonical.split("\n") if line)
    return Problem(lines, factors, fixed, subgroups[shift], products(math.lcm(*factors), multipliers), tuple(base_blocks))


@functools.lru_cache(maxsize=None)
def problem_of_source(lines):
    """The problem of a dossier's source lines; the dossiers of a chain have one source, for which the program is called once."""
    return problem_of(answer_of(["show"], "\n".join(lines) + "\n"))


# Designs

@functools.lru_cache(maxsize=None)
def developed(problem, names):
    """All images of a block, each once, under the maps x -> mx + h of the problem."""
    numbers = problem.numbers
    fixed = [numbers[name] for name in names if name.startswith("inf")]
    elements = [element_of(name) for name in names if not name.startswith("inf")]
    images = set()
    for multiplier in problem.multipliers:
        multiples = [tuple(multiplier * residue % factor for residue, factor in zip(element, problem.factors)) for element in elements]
        for shift in problem.shifts:
            moved = [numbers[element_name(sum_of(problem.factors, element, shift))] for element in multiples]
            images.add(tuple(sorted(moved + fixed)))
    return tuple(sorted(images))


def design_of_family(text):
    """The development of a source's family, which has to be accepted."""
    answer = answer_of(["verify"], text)
    problem = problem_of(answer_of(["show"], text))
    blocks = (tuple(problem.numbers[name] for name in tokens[1:]) for tokens in statements(answer) if tokens[0] == "block")
    return Design(problem, tuple(sorted(blocks)))


def designs_of_dossiers(text):
    """The designs of a dossier, or of a chain of dossiers."""
    for dossier in dossiers_of(text):
        problem = problem_of_source(dossier.source)
        for base_blocks in dossier.designs:
            yield Design(problem, tuple(sorted(image for names in base_blocks for image in developed(problem, names))))


def designs_of(text):
    """The designs that a text tells: a source one, its development, and dossiers all that they list."""
    return designs_of_dossiers(text) if is_dossier(text) else iter([design_of_family(text)])


# Dossiers

def blocks_of(tokens):
    """The blocks of a design line, which stand between the tokens ';'."""
    blocks, block = [], []
    for token in tokens:
        if token == ";":
            blocks.append(tuple(block))
            block = []
        else:
            block.append(token)
    return tuple(blocks + [tuple(block)]) if tokens else ()


def dossiers_of(text):
    """Each dossier of a chain. One that isn't whole is refused."""
    lines = enumerate(text.split("\n"), 1)
    for number, line in lines:
        tokens = line.split("#", 1)[0].split()
        if tokens:
            if tokens[0] != "dossier":
                raise Refusal(STATUS_BAD_INPUT, f"line {number}: a dossier has to begin here")
            yield dossier_from(lines)


def dossier_from(lines):
    """The dossier whose head was read, from the lines that follow; no line after its end line is taken."""
    source, designs, wanted = [], [], None
    for number, line in lines:
        tokens = line.split("#", 1)[0].split()
        if wanted is not None and len(source) < wanted:
            source.append(line)
        elif tokens and tokens[0] == "source" and wanted is None:
            wanted = number_at(tokens, 1, number)
        elif tokens and tokens[0] == "design":
            designs.append(blocks_of(tokens[1:]))
        elif tokens and tokens[0] == "end":
            return ended(source, designs, tokens, number)
    raise Refusal(STATUS_BAD_INPUT, "a dossier has no end line")


def number_at(tokens, place, number):
    try:
        return int(tokens[place])
    except (IndexError, ValueError):
        raise Refusal(STATUS_BAD_INPUT, f"line {number}: a number is missing") from None


def ended(source, designs, tokens, number):
    """The dossier that an end line ends."""
    if tokens[1:2] not in ([FINISHED], [SPENT]):
        raise Refusal(STATUS_BAD_INPUT, f"line {number}: an end line is wanted")
    path = tuple(number_at(tokens, place, number) for place in range(7, len(tokens)))
    return Dossier(tuple(source), tuple(designs), tokens[1], number_at(tokens, 5, number), path)


# What all tools share

def read_input():
    """All of standard input."""
    return sys.stdin.buffer.read().decode("utf-8", errors="surrogateescape")


def write_answer(text):
    """Writes an answer to standard output; the bytes are the same on every system."""
    sys.stdout.buffer.write(text.encode("utf-8"))
    sys.stdout.buffer.flush()


def ended_with(tool, action):
    """Runs a tool's action, and tells a refusal in one line on standard error. The status to end with."""
    try:
        action()
    except Refusal as refusal:
        print(f"{tool}: {refusal}", file=sys.stderr)
        return refusal.status
    except BrokenPipeError:
        os.dup2(os.open(os.devnull, os.O_WRONLY), sys.stdout.fileno())
        return STATUS_WRITE_FAILED
    except OSError as fault:
        print(f"{tool}: {fault}", file=sys.stderr)
        return STATUS_WRITE_FAILED
    return 0
