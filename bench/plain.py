#!/usr/bin/env python3
"""A slow program with the same commands, by the definitions alone: lists, counts and single maps.

plain.py [--with mixed] WORD.. < INPUT    writes the text of the answer and ends with its status

It is written from docs/DEFINITIONS.md, FORMATS.md, LANGUAGE.md and LOGS.md, shares nothing with the program, and is for small
inputs: bench/fuzz.py compares the two. `answer` is what it says to some words and an input, with a bound on its steps. What two
definitions say of one thing it asserts: that a table and a development agree, and that the solutions of a small matrix are all
families of blocks that are designs.

--with mixed    the command `mixed` is there too: the verdict, or with `--table` the table, of a family developed by the
                translations of its `shift` subgroup alone
"""
import sys

from plain_check import check_lines
from plain_dossier import Refused, read_spent
from plain_family import difference_table, mixed_table, table_lines, verdict
from plain_matrix import Limit, Matrix, orbit_lines
from plain_run import DEFAULT_BUDGET, Run, listing, path_fault, run_lines
from plain_source import Fault, Steps, canonical, lines_of, number, problem_of
from plain_words import Usage, judge

MOST_SOURCE = 1 << 20
MOST_DOSSIERS = 1 << 32
DONE, USAGE, BAD_INPUT, TOO_LONG = 0, 2, 3, 8


class Matrices:
    """Makes orbit matrices, and keeps the last one with the steps that it took: many inputs in turn have one source."""

    def __init__(self):
        self.lines, self.matrix, self.took = None, None, 0

    def of(self, problem, steps):
        lines = canonical(problem, steps)
        if lines == self.lines:
            steps.take(self.took)
        else:
            self.lines, before = None, steps.left
            self.matrix = Matrix(problem, steps)
            self.lines, self.took = lines, before - steps.left
        return self.matrix


MATRICES = Matrices()


def answer_to_source(words, problem, steps):
    """The status and the lines of a command that reads a source."""
    command, whole = words[0], problem.group.all
    if command == "show":
        return DONE, canonical(problem, steps)
    if command == "table":
        return DONE, table_lines(difference_table(problem, steps))
    if command == "verify":
        return verdict(problem, difference_table(problem, steps), whole, steps)
    if command == "mixed" and "--table" in words:
        return DONE, table_lines(mixed_table(problem, steps))
    if command == "mixed":
        return verdict(problem, mixed_table(problem, steps), sorted(problem.shift), steps)
    if command == "orbits":
        return DONE, orbit_lines(problem, steps)
    matrix = MATRICES.of(problem, steps)
    if command == "matrix":
        return DONE, matrix.lines()
    return answer_of_run(words, matrix, (), False, steps)


def budget_of(words):
    return number(words[words.index("--budget") + 1]) if "--budget" in words else DEFAULT_BUDGET


def answer_of_run(words, matrix, start, plain, steps):
    """The status and the lines of `solve` or `resume`."""
    run = Run(matrix, start, plain, budget_of(words), steps)
    if "--json" in words:
        return run.status, [listing(run, "--blocks" in words, steps)]
    return run.status, run_lines(run, "--log" in words, "--blocks" in words, steps)


def answer_of_resume(words, data, steps):
    problem, plain, (length, chosen) = read_spent(data, steps)
    matrix = MATRICES.of(problem, steps)
    fault = path_fault(matrix, length, chosen, plain, steps)
    if fault:
        return BAD_INPUT, [fault]
    return answer_of_run(words, matrix, tuple(column in chosen for column in range(length)), plain, steps)


def answer_of_workload(place, steps):
    points = 6 * place + 5
    source = [f"group {points}", "k 3", f"lambda {points - 2}"]
    matrix = MATRICES.of(problem_of([line.encode() for line in source], steps), steps)
    run = Run(matrix, (), False, DEFAULT_BUDGET, steps)
    counts = f"columns {len(matrix.columns)} designs {len(run.solutions)} nodes {run.nodes}"
    return run.status, [f"workload {place} points {points} {counts}"]


def answer_to_words(words, data, steps):
    """The status and the lines of a command line."""
    if words[0] == "workload":
        return answer_of_workload(number(words[1]), steps)
    if words[0] == "resume":
        return answer_of_resume(words, data, steps)
    if words[0] == "check":
        return DONE, check_lines(data, MATRICES.of, steps)
    return answer_to_source(words, problem_of(lines_of(data), steps), steps)


def answer(words, data, steps, later=()):
    """The status and the text that some words and an input are answered; raises TooSlow where the steps don't suffice."""
    try:
        judge(words, later)
        if len(data) > (MOST_DOSSIERS if words[0] in ("resume", "check") else MOST_SOURCE) and words[0] != "workload":
            return TOO_LONG, b""
        status, lines = answer_to_words(words, data, steps)
    except Usage as usage:
        status, lines = USAGE, [f"usage word {usage}"]
    except Fault as fault:
        status, lines = BAD_INPUT, ["source refused line {} {}".format(*fault.args)]
    except Limit as limit:
        status, lines = BAD_INPUT, [str(limit)]
    except Refused as refused:
        status, lines = refused.args[0], [refused.args[1]]
    return status, "".join(line + "\n" for line in lines).encode()


def main():
    words, later = sys.argv[1:], ()
    if words[:1] == ["--with"]:
        later, words = (words[1],), words[2:]
    status, text = answer(words, b"" if words[:1] == ["workload"] else sys.stdin.buffer.read(), Steps(), later)
    sys.stdout.buffer.write(text)
    sys.exit(status)


if __name__ == "__main__":
    main()
