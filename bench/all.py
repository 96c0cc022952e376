#!/usr/bin/env python3
"""Runs commands over large inputs, beside another program with the same texts, and prints a table of seconds and ratios.

all.py [PROGRAM] [--beside OTHER] [--rows WORD] [--write]    PROGRAM is crates/df_main/out/df_main where it isn't given

OTHER is a program with the same words, texts and statuses, such as a plain one without proofs; each text of the two is compared
byte for byte. The seconds are those of the processor, of runs whose text is thrown away: the least of five in which the two take
turns. `--rows` takes the rows alone whose name holds the word. `--write` puts the table into docs/COST.md, in the section that
names this script.
"""
import argparse, hashlib, os, pathlib, random, subprocess, sys, tempfile
from dataclasses import dataclass, field
from typing import Callable

import verify

TOP = pathlib.Path(__file__).resolve().parent.parent
RUNS = 5
BUDGET = "20000000"
START, END = "```\n", "```\n"
HEADING = "## Beside a plain program: `bench/all.py`"


@dataclass
class Row:
    name: str
    words: list[str]
    input: Callable[[], bytes]
    # of a program that is given, the words that write the input from it, as `solve --log` writes what `check` reads
    written_by: list[str] = field(default_factory=list)


def lines(*parts: str) -> Callable[[], bytes]:
    return lambda: ("\n".join(parts) + "\n").encode()


def family(kind: str) -> Callable[[], bytes]:
    return lambda: verify.source(*verify.prime_family(64, 64), kind)


def names(factors: list[int], generators: int) -> Callable[[], bytes]:
    """A source of nearly 1 MiB of named subgroups, each with so many generators."""
    def text() -> bytes:
        rng = random.Random(7)
        head = [f"group {' '.join(map(str, factors))}", "k 3", "lambda 1"]
        room, found = (1 << 20) - sum(len(line) + 1 for line in head), []
        while True:
            element = lambda: ",".join(str(rng.randrange(factor)) for factor in factors)
            line = f"subgroup n{len(found)} " + " ".join(element() for _ in range(generators))
            room -= len(line) + 1
            if room < 0:
                return ("\n".join(head + found) + "\n").encode()
            found.append(line)
    return text


def cyclic_triples(points: int) -> Callable[[], bytes]:
    return lines(f"group {points}", "k 3", "lambda 1")


MANY_MULTIPLIERS = lines("group 127", "k 3", "lambda 1", "mult" + " 3" * 300_000)
TWOFOLD = lines("group 43", "mult 6", "k 3", "lambda 2")
LOG = ["solve", "--log"]

ROWS = [
    Row("4,032 base blocks of 16, verify", ["verify"], family("base")),
    Row("the same, short, verify", ["verify"], family("short")),
    Row("4,032 base blocks of 16, table", ["table"], family("base")),
    Row("the same, short, table", ["table"], family("short")),
    Row("1 MiB of names, order 128, show", ["show"], names([128], 1)),
    Row("1 MiB of names, 2 x 64, show", ["show"], names([2, 64], 2)),
    Row("300,000 words of mult, show", ["show"], MANY_MULTIPLIERS),
    Row("25, k 8, orbits", ["orbits"], lines("group 25", "k 8", "lambda 1")),
    Row("64, k 4, orbits", ["orbits"], lines("group 64", "k 4", "lambda 1")),
    Row("45, k 5, orbits", ["orbits"], lines("group 45", "k 5", "lambda 1")),
    Row("127, mult 3, k 3, orbits", ["orbits"], lines("group 127", "mult 3", "k 3", "lambda 1")),
    Row("version 2, 119, k 4, orbits", ["orbits"], lines("version 2", "group 119", "k 4", "lambda 1")),
    Row("the same, shift none, orbits", ["orbits"], lines("version 2", "group 119", "shift none", "k 4", "lambda 1")),
    Row("46, shift none, k 3, matrix", ["matrix"], lines("group 46", "shift none", "k 3", "lambda 1")),
    Row("23, k 10, matrix", ["matrix"], lines("group 23", "k 10", "lambda 45")),
    Row("version 2, 63, k 4 5, matrix", ["matrix"], lines("version 2", "group 63", "k 4 5", "lambda 1")),
    Row("84, k 4, matrix", ["matrix"], lines("group 84", "k 4", "lambda 12")),
    *[Row(f"triples on {points}, solve", ["solve", "--budget", BUDGET], cyclic_triples(points)) for points in (31, 33, 37, 39, 43, 45)],
    *[Row(f"triples on {points}, solve --log", LOG, cyclic_triples(points)) for points in (33, 37)],
    Row("twofold triples on 43, solve --log", LOG, TWOFOLD),
    *[Row(f"triples on {points}, check", ["check"], cyclic_triples(points), LOG) for points in (33, 37)],
    Row("twofold triples on 43, check", ["check"], TWOFOLD, LOG),
]


def seconds(program: str, words: list[str], source: pathlib.Path) -> float:
    """The processor's seconds of a run, whose text is thrown away."""
    with open(source, "rb") as text:
        child = subprocess.Popen([program, *words], stdin=text, stdout=subprocess.DEVNULL)
    _, status, usage = os.wait4(child.pid, 0)
    child.returncode = os.waitstatus_to_exitcode(status)
    return usage.ru_utime + usage.ru_stime


def text_of(program: str, words: list[str], source: pathlib.Path) -> tuple[int, int, str]:
    """The status of a run, the bytes of its text, and their sum."""
    count, sum = 0, hashlib.sha256()
    with open(source, "rb") as text:
        child = subprocess.Popen([program, *words], stdin=text, stdout=subprocess.PIPE)
    while piece := child.stdout.read(1 << 20):
        count += len(piece)
        sum.update(piece)
    return child.wait(), count, sum.hexdigest()


def write_input(program: str, row: Row, folder: pathlib.Path) -> pathlib.Path:
    """The file with the input of a row."""
    source = folder / "source"
    source.write_bytes(row.input())
    if not row.written_by:
        return source
    log = folder / "log"
    with open(source, "rb") as text, open(log, "wb") as out:
        subprocess.run([program, *row.written_by], stdin=text, stdout=out, check=True)
    return log


def measured(program: str, other: str | None, row: Row, folder: pathlib.Path) -> str:
    source = write_input(program, row, folder)
    told = text_of(program, row.words, source)
    if other and (its := text_of(other, row.words, source)) != told:
        sys.exit(f"{row.name}: the texts differ: {told} and {its}")
    own, beside = [], []
    for _ in range(RUNS):
        own.append(seconds(program, row.words, source))
        if other:
            beside.append(seconds(other, row.words, source))
    line = f"{row.name:38} {source.stat().st_size:10} {told[1]:10} {min(own):8.3f}"
    if other:
        # a clock of a millisecond or four tells no ratio of runs that are shorter
        ratio = f"{min(own) / min(beside):6.2f}" if min(beside) >= 0.004 else f"{'':6}"
        line += f" {min(beside):8.3f} {ratio}"
    return line.rstrip()


def write_table(table: str) -> None:
    """Puts the table into the section of docs/COST.md that names this script, in the place of the one that is there."""
    path = TOP / "docs/COST.md"
    text = path.read_text()
    if HEADING not in text:
        sys.exit(f"{path} has no section '{HEADING}'")
    before, after = text.split(HEADING, 1)
    head, _, rest = after.partition(START)
    _, _, rest = rest.partition(END)
    path.write_text(before + HEADING + head + START + table + END + rest)


def main() -> None:
    words = argparse.ArgumentParser(description=__doc__.split("\n")[0])
    words.add_argument("program", nargs="?", default=str(TOP / "crates/df_main/out/df_main"))
    words.add_argument("--beside")
    words.add_argument("--rows", default="")
    words.add_argument("--write", action="store_true")
    asked = words.parse_args()
    head = f"{'input, command':38} {'read':>10} {'printed':>10} {'seconds':>8}" + f" {'beside':>8} {'ratio':>6}" * bool(asked.beside)
    print(head, flush=True)
    table = [head]
    with tempfile.TemporaryDirectory() as name:
        for row in ROWS:
            if asked.rows in row.name:
                table.append(measured(asked.program, asked.beside, row, pathlib.Path(name)))
                print(table[-1], flush=True)
    if asked.write:
        write_table("\n".join(table) + "\n")


if __name__ == "__main__":
    main()
