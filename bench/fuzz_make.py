"""Makes words, sources, dossiers and chains, valid and spoiled, for bench/fuzz.py.

What a case is depends on its random numbers alone. Dossiers are written by plain.py, and logs in another order than that of a
search are made here, entry by entry, of what plain_check.py lets pass.
"""
import itertools, math

from plain import MATRICES, answer
from plain_check import Log
from plain_matrix import Limit
from plain_source import Fault, Steps, TooSlow, canonical, problem_of

SMALL_GROUPS = [[2], [3], [4], [5], [6], [7], [8], [9], [10], [11], [12], [13], [2, 2], [2, 3], [3, 2], [2, 4], [3, 3], [2, 2, 2]]
LARGE_GROUPS = [[15], [16], [4, 4], [19], [2, 2, 5], [21], [25], [5, 5], [31], [64], [127], [128], [2] * 7, [11, 11], [4, 4, 4]]
NUMBERS = ["0", "1", "2", "3", "4", "5", "6", "7", "8", "9", "12", "16", "17", "00", "007", "64", "127", "128", "129", "1000", "1001", "4095",
           "4096", "2000000", "2000001", "4294967295", "4294967296", "18446744073709551615", "18446744073709551616", "9" * 30, "0" * 30 + "1"]
NO_NUMBERS = ["+1", "-1", "-0", "-", "--1", "-1000", "-1001", "1.0", "0x1", "1e3", "1_0", ",", "0,", ",0", "0,,1", "0,1", "1,1", "0,1,0", "01,00", "-1,0",
              "inf", "inf0", "inf1", "inf2", "inf01", "inf16", "inf17", "Inf1", "inf-1", "inf1,0", ";", ";;", "a", "_a", "a_b", "1a", "A234567890123456",
              "A2345678901234567", "all", "none", "All", "N", "M", "\xe9", "\x00", "\x0b", "x\x0c", "\xa0"]
KEYWORDS = ("group fixed subgroup shift mult k lambda inside hole base short version require forbid dossier source from branch over under settled "
            "residue cut design end finished spent designs nodes next").split()
TOKENS = NUMBERS + NO_NUMBERS + KEYWORDS
BYTES = [" ", "\t", "\r", "\n", "#", ";", ",", "-", "0", "1", "9", "\x00", "\x0b", "\x0c", "\x7f", "\xff", "\xc3\xa9", "\n\n", "\r\n", "inf1"]
LINES = ["", " ", "\t\r", "#", "# comment", "branch 0", "branch 1", "over 0", "under 0", "under 1", "settled", "design", "design 0 1 3", "design 0 1 ; 0 2",
         "residue 0 2", "residue 1 3", "cut 1 0", "cut -1 0 2 1", "cut 1000 0 -1000 1", "from 0", "from 1", "dossier 1", "dossier 2", "source 1",
         "end finished designs 0 nodes 0", "end spent designs 0 nodes 0 next 0", "end spent designs 1 nodes 1 next 1 0", "base 0 1", "short 0 1", "hole 1",
         "version 2", "require 0 1", "forbid 0 1", "k 2", "lambda 1", "fixed 1", "group 2", "mult 1", "shift all", "subgroup M"]
WORDS = ("show table verify orbits matrix solve resume check workload help --help --version --budget --log --blocks --json --table -- "
         "0 1 2 20 21 007 x -1 1000000000000000 1000000000000001 18446744073709551616").split() + [""]
# problems whose searches have designs, for where a made source has no search
PROBLEMS = ["group 7 / k 3 / lambda 1", "group 8 / fixed 1 / k 3 / lambda 1", "group 7 / mult 6 / k 3 / lambda 3", "group 9 / k 3 / lambda 1",
            "group 3 3 / k 3 / lambda 1", "group 13 / k 4 / lambda 1", "version 2 / group 6 / k 2 3 / lambda 1",
            "version 2 / group 6 / k 2 3 / lambda 1 / require 0 2 4", "group 7 / k 3 / lambda 2", "group 6 / shift none / k 3 / lambda 2",
            "group 8 / subgroup N 4 / k 3 / lambda 1 / inside N 0", "group 5 / fixed 2 / k 3 / lambda 2 / hole 0"]


# Sources

class SourceMaker:
    """Makes the lines of one source, which mostly states a problem."""

    def __init__(self, rng, large):
        self.rng = rng
        self.factors = rng.choice(LARGE_GROUPS if large else SMALL_GROUPS)
        self.order = math.prod(self.factors)
        self.fixed = rng.choice([0, 0, 0, 0, 1, 1, 2, 3])
        self.version = rng.choice([1, 1, 2])
        self.names = rng.sample(["N", "M", "a_b", "Z9"], rng.choice([0, 0, 0, 1, 1, 2]))
        sizes = [rng.choice([2, 2, 3, 3, 3, 3, 4, 4, 5]) for _ in range(rng.randint(1, 3) if self.version == 2 else 1)]
        self.sizes = [min(k, self.order + self.fixed) for k in sizes]

    def point(self, among=None):
        p = self.rng.randrange(among or self.order + self.fixed)
        zeros = "0" * (self.rng.random() < 0.02)
        if p >= self.order:
            return f"inf{zeros}{p - self.order + 1}"
        residues = []
        for f in reversed(self.factors):
            residues.append(zeros + str(p % f))
            p //= f
        return ",".join(reversed(residues))

    def block(self):
        points = []
        size = self.rng.choice(self.sizes)
        while len(points) < size:
            p = self.point()
            if p not in points or self.rng.random() < 0.002:
                points.append(p)
        return " ".join(points)

    def numbers(self, word, values):
        return " ".join([word, *map(str, values)])

    def subgroup_word(self):
        return self.rng.choice(["all", "none"] + self.names * 3)

    def multipliers(self):
        exponent = math.lcm(*self.factors)
        units = [u for u in range(1, 2 * exponent + 2) if math.gcd(u, exponent) == 1]
        return self.numbers("mult", self.rng.choices(units, k=self.rng.randint(1, 3)))

    def conditions(self):
        """The lines that say what is asked for."""
        rng = self.rng
        lines = []
        if rng.random() < 0.4:
            lines.append("shift " + self.subgroup_word())
        if rng.random() < 0.4:
            lines.append(self.multipliers())
        lines += [self.numbers("k", self.sizes), f"lambda {rng.choice([0, 1, 1, 1, 2, 2, 3, 4, 6])}"]
        if rng.random() < 0.25:
            lines.append(f"inside {self.subgroup_word()} {rng.choice([0, 0, 1, 2])}")
        if rng.random() < 0.2:
            lines.append(f"hole {rng.choice([0, 1, 2])}")
        return lines

    def blocks(self):
        rng = self.rng
        lines = [rng.choice(["base ", "base ", "short "]) + self.block() for _ in range(rng.choice([0, 0, 1, 1, 2, 3]))]
        if self.version == 2:
            lines += [rng.choice(["require ", "forbid "]) + self.block() for _ in range(rng.choice([0, 0, 1, 2]))]
        return lines

    def lines(self):
        rng = self.rng
        lines = ["version 2"] if self.version == 2 else []
        lines.append(self.numbers("group", self.factors))
        if self.fixed or rng.random() < 0.2:
            lines.append(f"fixed {self.fixed}")
        for name in self.names:
            lines.append(" ".join(["subgroup", name] + [self.point(self.order) for _ in range(rng.randint(0, 2))]))
        conditions = self.conditions()
        if rng.random() < 0.2:
            rng.shuffle(conditions)
        return lines + conditions + self.blocks()


def developed_family(rng):
    """A source whose family is the answer to its own problem: some orbits of blocks, and the target that they happen to have."""
    maker = SourceMaker(rng, False)
    lines = maker.lines()
    lines = [line for line in lines if line.split()[0] not in ("base", "short", "mult", "lambda", "hole", "inside")]
    maker.names = []
    lines += ["lambda " + str(rng.choice([1, 1, 2, 3]))]
    status, text = answer(["solve", "--budget", "200"], joined(lines), Steps(200000))
    designs = [line for line in text.decode().split("\n") if line.startswith("design ")]
    if status not in (0, 7) or not designs:
        return lines
    return lines + ["short " + b for b in rng.choice(designs).removeprefix("design ").split(" ; ")]


def source(rng):
    """The lines of a source, with comments and blanks here and there."""
    if rng.random() < 0.1:
        lines = developed_family(rng)
    else:
        lines = SourceMaker(rng, rng.random() < 0.06).lines()
    if rng.random() < 0.3:
        lines = [blanked(rng, line) for line in lines]
        for _ in range(rng.randint(0, 2)):
            lines.insert(rng.randrange(len(lines) + 1), rng.choice(["", "#", "# group 2", " \t\r"]))
    return lines


def blanked(rng, line):
    chance = rng.random()
    if chance < 0.1:
        return line + rng.choice([" # comment", "#", "\t#x", " \r"])
    return rng.choice(["", " ", "\t"]) + line.replace(" ", rng.choice([" ", "  ", "\t", " \r"])) if chance < 0.25 else line


def joined(lines):
    return "".join(line + "\n" for line in lines).encode("latin-1")


# Spoiling

def spoiled_tokens(rng, line):
    found = line.split(" ")
    place = rng.randrange(len(found))
    way = rng.randrange(6)
    if way == 0:
        del found[place]
    elif way == 1:
        found.insert(place, rng.choice(TOKENS))
    elif way == 2:
        found.insert(place, rng.choice(found))
    elif way == 3 and found[place].isdigit():
        found[place] = str(max(0, int(found[place]) + rng.choice([-2, -1, 1, 2])))
    elif way == 4 and len(found) > 1:
        other = rng.randrange(len(found))
        found[place], found[other] = found[other], found[place]
    else:
        found[place] = rng.choice(TOKENS)
    return " ".join(found)


def spoiled_bytes(rng, line):
    place = rng.randrange(len(line) + 1)
    return line[:place] + rng.choice(BYTES) + line[place + rng.randint(0, 1):]


def spoiled(rng, lines):
    """Some lines with one to three faults, most often in the later ones."""
    lines = list(lines)
    for _ in range(rng.choice([1, 1, 1, 1, 2, 3])):
        if not lines:
            return [rng.choice(LINES)]
        place = rng.randrange(len(lines)) if rng.random() < 0.5 else len(lines) - 1 - rng.randrange(1 + len(lines) // 2)
        way = rng.random()
        if way < 0.12:
            del lines[place]
        elif way < 0.22:
            lines.insert(place, rng.choice(lines))
        elif way < 0.3:
            other = rng.randrange(len(lines))
            lines[place], lines[other] = lines[other], lines[place]
        elif way < 0.4:
            lines.insert(place, rng.choice(LINES))
        elif way < 0.85:
            lines[place] = spoiled_tokens(rng, lines[place])
        else:
            lines[place] = spoiled_bytes(rng, lines[place])
    return lines


def bytes_of(rng, lines):
    """The bytes of some lines, now and then cut off."""
    data = joined(lines)
    if rng.random() < 0.05:
        return data[:-1]
    return data[:rng.randrange(len(data) + 1)] if rng.random() < 0.04 else data


# Dossiers and chains

def texts_of_runs(rng, lines):
    """The texts of a chain of runs of plain.py, cut at any budgets."""
    texts, data, command = [], joined(lines), "solve"
    options = ["--log"] * (rng.random() < 0.85) + ["--blocks"] * (rng.random() < 0.1)
    for _ in range(rng.choice([1, 1, 2, 3, 5])):
        budget = str(rng.choice([1, 1, 2, 3, 5, 10, 40, 200]))
        status, text = answer([command, "--budget", budget, *options], data, Steps(300000))
        if status not in (0, 7):
            break
        texts.append(text)
        if rng.random() < 0.15:
            text = text.replace(b"dossier 2", b"dossier 1", 1)
        data, command = text, "resume"
        if status == 0:
            break
    return texts


def leaf(rng, log):
    """An entry that holds and ends a log, or None."""
    rows = len(log.matrix.targets)
    entries = [("settled",)]
    for row in rng.sample(range(rows), min(rows, 4)):
        entries += [("over", row), ("under", row), ("residue", row, rng.choice([2, 3, 4, 6]))]
        chosen = sorted(rng.sample(range(rows), rng.randint(1, min(rows, 3))))
        entries.append(("cut", [(rng.choice([-1000, -3, -2, -1, 1, 1, 1, 2, 5]), r) for r in chosen]))
    rng.shuffle(entries)
    return next((entry for entry in entries if log.fault_of(entry) is None), None)


def entry_text(entry):
    if entry[0] == "cut":
        return " ".join(["cut"] + [f"{weight} {row}" for weight, row in entry[1]])
    return " ".join(map(str, entry))


def own_log(rng, problem):
    """The lines of a log whose columns come in any order, or of the beginning of one."""
    log = Log(MATRICES.of(problem, Steps(300000)), Steps(300000))
    most = 150 if len(log.matrix.columns) < 24 else 12
    lines = []
    while not log.is_whole() and len(lines) < most:
        if log.design is not None:
            lines.append(" ".join(["design", " ; ".join(map(problem.block_text, log.design))]).rstrip())
            log.line("design", log.design)
            continue
        free = log.undecided()
        entry = leaf(rng, log) if not free or rng.random() < 0.9 else None
        entry = entry or (("branch", rng.choice(free)) if free else None)
        if entry is None:
            break
        lines.append(entry_text(entry))
        log.line(entry[0], entry)
    return lines


def cut_log(rng, source_lines, log):
    """The texts of dossiers whose joined logs are some lines, with any paths where they are cut."""
    texts, path = [], "0"
    head = [f"source {len(source_lines)}"] + source_lines
    while True:
        count = rng.randint(0, len(log)) if rng.random() < 0.3 else len(log)
        following = path_anywhere(rng)
        counts = f"designs {rng.choice([0, 1, 7])} nodes {rng.choice([0, 1, 7])}"
        end = f"end finished {counts}" if count == len(log) else f"end spent {counts} next {following}"
        texts.append(joined(["dossier 2"] + head + ["from " + path] + log[:count] + [end]))
        if count == len(log):
            return texts
        log, path = log[count:], following


def texts_of_own_log(rng, lines):
    lines = [line.split("\n")[0] for line in lines]
    try:
        problem = problem_of([line.encode("latin-1") for line in lines], Steps(100000))
        log = own_log(rng, problem)
    except (Fault, Limit, TooSlow):
        return []
    return cut_log(rng, canonical(problem, Steps()) if rng.random() < 0.5 else lines, log)


def path_anywhere(rng, most=5):
    """The text of a path that some searches have and others don't."""
    length = rng.randint(0, most)
    return " ".join(str(n) for n in [length] + [c for c in range(length) if rng.random() < 0.3])


def log_case(rng, lines):
    """A command that reads dossiers, and a chain for it."""
    texts = texts_of_own_log(rng, lines) if rng.random() < 0.4 else texts_of_runs(rng, lines)
    texts = texts or texts_of_runs(rng, rng.choice(PROBLEMS).split(" / "))
    command = rng.choice(["check", "check", "check", "resume"])
    if command == "resume" and texts:
        texts = [rng.choice(texts)]
    if rng.random() < 0.06:
        rng.shuffle(texts)
    if rng.random() < 0.05:
        texts = texts + texts[:1]
    lines = b"".join(texts).decode("latin-1").split("\n")[:-1]
    if command == "resume" and rng.random() < 0.4:
        lines = lines[:-1] + [f"end spent designs 0 nodes 1 next {path_anywhere(rng)}"]
    elif rng.random() < 0.6:
        begin = next((place for place, line in enumerate(lines) if line.startswith("from ")), 0) if rng.random() < 0.85 else 0
        lines = lines[:begin] + spoiled(rng, lines[begin:])
    return [command] + (options(rng, command) if command == "resume" else []), bytes_of(rng, lines)


# Cases

def options(rng, command):
    groups = [["--log"], ["--blocks"]] + [["--json"]] * (command == "solve")
    chosen = [g for g in groups if rng.random() < 0.35]
    if ["--json"] in chosen and ["--log"] in chosen and rng.random() < 0.95:
        chosen.remove(["--log"])
    chosen.append(["--budget", str(rng.choice([1, 2, 3, 5, 10, 40, 200]))])
    rng.shuffle(chosen)
    return list(itertools.chain(*chosen))


def words_case(rng):
    words = [rng.choice(WORDS) for _ in range(rng.randint(0, 5))]
    if rng.random() < 0.7:
        words.insert(0, rng.choice(["solve", "solve", "resume", "check", "show", "workload"]))
    if words[:1] == ["workload"] and len(words) > 1:
        words[1] = rng.choice(["1", "01", "2", "0", "21", "x"])
    return words


def noise(rng):
    pieces = [rng.choice(BYTES + ["\n"] * 8 + [t + " " for t in TOKENS]) for _ in range(rng.randint(0, 50))]
    return "".join(pieces).encode("latin-1")


def case(rng, later=()):
    """The words and the input of a case."""
    kind = rng.random()
    if kind < 0.05:
        return words_case(rng), bytes_of(rng, source(rng))
    if kind < 0.07:
        return [rng.choice(["show", "verify", "check", "resume", "solve"])], noise(rng)
    lines = source(rng)
    if kind > 0.55:
        return log_case(rng, lines)
    if rng.random() < 0.4:
        lines = spoiled(rng, lines)
    commands = ["show", "show", "table", "verify", "verify", "orbits", "matrix", "solve", "solve", "solve"] + ["mixed"] * (3 * len(later))
    command = rng.choice(commands)
    words = [command] + (options(rng, "solve") if command == "solve" else [])
    if command == "mixed" and rng.random() < 0.5:
        words.append("--table")
    return words, bytes_of(rng, lines)
