"""Inputs at each limit of the words, of sources, of dossiers and of the matrix, and next to it, for bench/fuzz.py."""
from fuzz_make import joined

MOST_SOURCE = 1 << 20
NUMBERS = (0, 1, 2, 15, 16, 17, 127, 128, 129, 1000, 1001, 2000000, 2000001, (1 << 32) - 1, 1 << 32, (1 << 64) - 1, 1 << 64)
PLANE = ["group 7", "k 3", "lambda 1"]
PROBLEMS = {
    "subsets": ["group 84 / k 4 / lambda 0", "group 85 / k 4 / lambda 0", "group 36 / k 6 / lambda 0", "group 37 / k 6 / lambda 0",
                "group 128 / k 16 / lambda 1", "version 2 / group 120 / k 4 / lambda 1", "version 2 / group 119 / k 2 3 4 / lambda 1",
                "version 2 / group 128 / k 2 3 4 5 6 7 8 9 10 11 12 13 14 15 16 / lambda 1", "version 2 / group 85 / k 4 / lambda 0"],
    "columns": ["group 20 / shift none / k 7 / lambda 1", "version 2 / group 20 / shift none / k 3 4 5 6 / lambda 1",
                "version 2 / group 21 / shift none / k 5 6 / lambda 1"],
    "entries": ["group 46 / shift none / k 3 / lambda 1", "group 47 / shift none / k 3 / lambda 1"],
}


def with_zeros(number):
    return "0" * 5000 + str(number)


def word_cases():
    for number in (0, 1, 10**15, 10**15 + 1, (1 << 64) - 1, 1 << 64, with_zeros(1)):
        for words in (["solve", "--budget"], ["solve", "--json", "--budget"], ["resume", "--budget"]):
            yield [*words, str(number)], joined(PLANE)
    for number in (0, 1, 2, 3, "003", 21, 255, 256, 257, 1 << 64):
        yield ["workload", str(number)], b""


def factor_cases():
    for factors in ("1", "2", "128", "129", "2 64", "2 65", "2 2 2 2 2 2 2", "2 2 2 2 2 2 2 2", "2 2 2 2 2 2 3", "64 3", "127", "11 11", with_zeros(7)):
        yield ["show"], joined([f"group {factors}", "k 2", "lambda 0"])


def number_cases():
    """Each number of a source, at each number that could be a limit of something."""
    for number in NUMBERS:
        for group in ("group 7", "group 112", "group 113", "group 128"):
            yield ["show"], joined([group, f"fixed {number}", "k 2", "lambda 0"])
            yield ["show"], joined([group, f"k {number}", "lambda 0"])
            yield ["show"], joined([group, f"mult {number}", "k 2", "lambda 0"])
        for word in ("lambda", "hole", "inside none", "inside all"):
            first = [] if word == "lambda" else ["lambda 1"]
            yield ["show"], joined(["group 7", "fixed 2", "k 3", *first, f"{word} {number}"])
            yield ["table"], joined(["group 7", "fixed 2", "k 3", *first, f"{word} {number}"])
        yield ["show"], joined(["version 2", "group 7", f"k 2 {number}", "lambda 1"])
        yield ["show"], joined([f"version {number}", *PLANE])
        yield ["show"], joined([*PLANE, f"base 0 1 {number}"])
    for fixed in range(14, 18):
        points = " ".join(["0"] + [f"inf{p}" for p in range(1, fixed + 1)])
        yield ["show"], joined(["group 7", f"fixed {fixed}", "k 16", "lambda 1", "base " + points])


def name_cases():
    for name in ("A" * 16, "A" * 17, "a_9", "_a", "9a", "all", "none", "All", "inf1", "group", "Z", "z", "[", "`", "@", "{", "a-b"):
        yield ["show"], joined(["group 8", f"subgroup {name} 4", f"shift {name}", "k 3", "lambda 1", f"inside {name} 0"])
    yield ["show"], joined(["group 2 2 2 2 2 2 2"] + [f"subgroup n{n} 1,{n % 2},0,0,1,0,1 0,0,1,1,0,{n % 2},1" for n in range(300)] + ["k 3", "lambda 1"])


def block_cases():
    """As many blocks as there may be, and one more, of each kind."""
    for words in (["base"], ["short"], ["base", "short"], ["require"], ["forbid"], ["require", "forbid"]):
        for count in (4095, 4096, 4097):
            lines = ["version 2", *PLANE] + [f"{words[n % len(words)]} 0 1 3" for n in range(count)]
            yield ["show"], joined(lines)
            yield ["check"], joined(["dossier 2", f"source {len(lines)}", *lines, "from 0"])
    both = [f"{word} 0 1 3" for word in ("base", "require") for _ in range(4096)]
    yield ["show"], joined(["version 2", *PLANE, *both])


def size_cases():
    """Sources with as many bytes as there may be, and one more; and dossiers with more."""
    text = joined([*PLANE, "base 0 1 3"])
    for count in (MOST_SOURCE - 1, MOST_SOURCE, MOST_SOURCE + 1, 3 * MOST_SOURCE):
        for filler in (b"#", b" ", b"\n", b"\r"):
            data = text + filler * (count - len(text))
            yield ["verify"], data
            yield ["solve", "--log"], data
            yield ["check"], data
    dossier = ["dossier 2", "source 3", *PLANE, "from 0"]
    log = ["branch 0", "settled", "design 0 1 3", "branch 1", "settled", "design 0 1 5", "under 0"]
    for filler in ("", "#" * 5000, "# comment", " " * 4095, " " * 4096, " " * 4097, "\t" * 70000):
        yield ["check"], joined(dossier + [filler] * 300 + log + ["end finished designs 2 nodes 4"])
        yield ["check"], joined(dossier + log[:3] + [filler] * 300 + ["end spent designs 2 nodes 4 next 1"])
        yield ["resume"], joined(dossier + log[:3] + [filler] * 300 + ["end spent designs 2 nodes 4 next 1"])
        yield ["resume"], joined(dossier + [f"branch{filler}0"] * 3 + ["end spent designs 2 nodes 4 next 1"])
        yield ["resume"], joined(dossier + ["branch 0" + filler] * 3 + ["end spent designs 2 nodes 4 next 1"])


def dossier_cases():
    """Each number of a dossier, at each number that could be a limit of something."""
    head, end = ["dossier 2", "source 3", *PLANE, "from 0"], "end finished designs 0 nodes 0"
    for number in (*NUMBERS, with_zeros(1), with_zeros(1 << 32), "-1", "-1000", "-1001", "-0"):
        yield ["check"], joined(["dossier 2", f"source {number}", *PLANE, "from 0", end])
        yield ["check"], joined([f"dossier {number}", *head[1:], end])
        for entry in ("branch {}", "over {}", "under {}", "residue {} 2", "residue 0 {}", "cut 1 {}", "cut {} 0", "cut 1 0 {} 1", "cut 1 0 1 {}"):
            yield ["check"], joined([*head, entry.format(number), end])
        for path in ("{}", "3 {}", "4294967295 0 {}", "{} 0"):
            text = path.format(number)
            yield ["check"], joined([*head[:-1], f"from {text}", end])
            for command in ("check", "resume"):
                yield [command], joined([*head, f"end spent designs 0 nodes 0 next {text}"])
        for counts in ("designs {} nodes 1", "designs 1 nodes {}"):
            yield ["check"], joined([*head, "end finished " + counts.format(number)])
            yield ["resume"], joined([*head, f"end spent {counts.format(number)} next 0"])
    for rows in (1, 2, 15, 16, 17, 32):
        yield ["check"], joined([*head, " ".join(["cut"] + [f"1 {row}" for row in range(rows)]), end])


def matrix_cases():
    for name, problems in PROBLEMS.items():
        for problem in problems:
            commands = [["solve", "--budget", "1"], ["orbits"]] if name == "subsets" else [["solve", "--budget", "1"], ["matrix"]]
            for words in commands:
                yield words, joined(problem.split(" / "))
    points = list(range(25))
    forbidden = [[a, b, c, d] for a in points for b in points[a + 1:] for c in points[b + 1:] for d in points[c + 1:]]
    for count in (243, 244):
        lines = ["version 2", "group 25", "shift none", "k 4 5", "lambda 1"] + ["forbid {} {} {} {}".format(*b) for b in forbidden[:count]]
        yield ["solve", "--budget", "1"], joined(lines)


def limits():
    """A name, the words and the input of each case."""
    for make in (word_cases, factor_cases, number_cases, name_cases, block_cases, size_cases, dossier_cases, matrix_cases):
        for place, (words, data) in enumerate(make()):
            yield f"{make.__name__} {place}", words, data
