#!/usr/bin/env python3
"""Compares `check` of a program with judge.py on logs of small sources, whole ones and changed ones.

random_logs.py [--count N] [--seed S] [--chains N] PROGRAM      any program that has a command `check`

For each of N sources (1000) a log is written by write_log.py, in random order. It has to be complete. Then one thing is changed: a
line is left out, doubled, moved, or a token of it is another one, or the text is cut off; the answers have to be the same. In the
same way a chain of several dossiers is cut from the log at random lines, is complete, and is changed. Of each N-th source (10) the
log is cut in two at each of its lines. What differs is printed whole; the last line counts. The status is 1 where one differs.
"""
import argparse, collections, random, subprocess, sys

import judge
import write_log

MOST_COLUMNS, MOST_LINES = 9, 60
GROUPS = ["2", "3", "4", "5", "6", "7", "7", "8", "9", "2 2", "2 3", "2 4", "3 3", "2 2 2"]
PATHS = ["0", "1", "2 1", "3 0 2", "5 1 2 4"]
TOKENS = ("0 1 2 3 4 5 6 7 8 01 007 -1 -2 1000 1001 4294967295 4294967296 99999999999999999999 ; # x inf1 inf2 1,1 branch over "
          "under settled residue cut design end finished spent next dossier source from designs nodes group k lambda mult").split()


def small_source(draw, refused):
    """The lines of a source, and its matrix, with few columns. Lines that are no source are handed to `refused`."""
    while True:
        group = draw.choice(GROUPS)
        factors = [int(f) for f in group.split()]
        order = 1
        for f in factors:
            order *= f
        fixed = draw.choice([0, 0, 0, 1, 2])
        version = draw.choice([1, 1, 2])
        sizes = sorted(set(draw.choice([2, 3, 3, 3, 4]) for _ in range(version)))
        lines = ["version 2"] * (version == 2) + ["group " + group] + ["fixed %d" % fixed] * (fixed > 0)
        if draw.random() < 0.3:
            lines.append("subgroup S " + ",".join(str(draw.randrange(f)) for f in factors))
            lines += ["inside S %d" % draw.choice([0, 1, 2])] * draw.randrange(2) + ["shift S"] * draw.randrange(2)
        if draw.random() < 0.4:
            lines.append("mult %d" % draw.choice([1, 3, 5, 7, 2 * order - 1]))
        lines += ["k " + " ".join(map(str, sizes)), "lambda %d" % draw.choice([0, 1, 1, 1, 2, 2, 3])]
        if draw.random() < 0.3:
            lines.append("hole %d" % draw.choice([0, 1, 2]))
        if version == 2 and draw.random() < 0.5:
            points = list(range(order + fixed))
            size = min(draw.choice(sizes), len(points))
            block = draw.sample(points, size)
            every = judge.elements(factors)
            names = [",".join(map(str, every[p])) if p < order else "inf%d" % (p - order + 1) for p in block]
            lines.append(draw.choice(["require ", "forbid "]) + " ".join(names))
        if draw.random() < 0.2:
            lines.insert(draw.randrange(len(lines) + 1), draw.choice(["", "# any text", "   "]))
        try:
            problem, matrix = judge.stated(tuple(line.encode() for line in lines))
        except judge.Bad:
            refused(lines)
            continue
        if not isinstance(matrix, str) and 1 <= len(matrix.columns) <= MOST_COLUMNS:
            return lines, problem, matrix


def changed(data, draw):
    """The same text with one random change."""
    lines = data.decode().split("\n")[:-1]
    place = draw.randrange(len(lines))
    if draw.random() < 0.6:
        # most changes are among the lines of the log
        place = draw.randrange(min(len(lines) - 1, 5), len(lines))
    how = draw.choice("out twice moved token token token token more less cut other comment bytes".split())
    words = lines[place].split(" ")
    if how == "out":
        del lines[place]
    elif how == "twice":
        lines.insert(place, lines[place])
    elif how == "moved":
        lines.insert(draw.randrange(len(lines)), lines.pop(place))
    elif how == "token":
        spot = draw.randrange(len(words))
        number = words[spot].lstrip("-").isdigit()
        words[spot] = str(int(words[spot]) + draw.choice([-2, -1, 1, 2])) if number and draw.random() < 0.7 else draw.choice(TOKENS)
        lines[place] = " ".join(words)
    elif how == "more":
        words.insert(draw.randrange(len(words) + 1), draw.choice(TOKENS))
        lines[place] = " ".join(words)
    elif how == "less":
        del words[draw.randrange(len(words))]
        lines[place] = " ".join(words)
    elif how == "other":
        lines[place] = lines[draw.randrange(len(lines))]
    elif how == "comment":
        lines.insert(place, "# branch 0")
    elif how == "bytes":
        spot = draw.randrange(len(data))
        byte = draw.choice([b" ", b"\t", b"\n", b"\r", b"#", b"\x00", b"\xff", b"1"])
        return data[:spot] + byte + data[spot + draw.randrange(2):]
    else:
        return data[:draw.randrange(len(data))]
    return write_log.text(lines)


def chain(source, body, places, draw):
    """The dossiers of a log that is cut before the lines at some places, joined."""
    paths = ["0"] + [draw.choice(PATHS) for _ in places] + [None]
    starts, ends = [0, *places], [*places, len(body)]
    lines = []
    for start, end, begin, path in zip(starts, ends, paths, paths[1:]):
        lines += write_log.dossier(source, body[start:end], begin, path)
    return write_log.text(lines)


class Comparison:
    def __init__(self, program):
        self.program, self.cases, self.differ = program, 0, 0
        self.answers = collections.Counter()

    def of(self, data, whole=False):
        wanted = judge.judge(data)
        run = subprocess.run([self.program, "check"], input=data, stdout=subprocess.PIPE)
        got = run.stdout.decode().rstrip("\n"), run.returncode
        self.cases += 1
        self.answers[" ".join(w for w in wanted[0].split() if w.isalpha())] += 1
        if got != wanted or whole and not wanted[0].startswith("complete"):
            self.differ += 1
            print(f"---- {got}, not {wanted}{' which is whole' if whole else ''}\n{data.decode('latin-1')}", flush=True)


def main():
    parser = argparse.ArgumentParser()
    parser.add_argument("--count", type=int, default=1000)
    parser.add_argument("--seed", type=int, default=1)
    parser.add_argument("--chains", type=int, default=10)
    parser.add_argument("program")
    given = parser.parse_args()
    sys.setrecursionlimit(1000000)
    judge.MOST_VECTORS = 1 << 10
    comparison = Comparison(given.program)
    made, statements = 0, collections.Counter()
    for seed in range(given.seed * 1000000, given.seed * 1000000 + 100 * given.count):
        draw = random.Random(seed)
        source, problem, matrix = small_source(draw, lambda lines: comparison.of(write_log.text(write_log.dossier(lines, []))))
        body = write_log.log(problem, matrix, judge.NOTHING, draw)
        if len(body) > MOST_LINES:
            continue
        statements.update({line.split()[0] for line in source if judge.tokens(line.encode())})
        whole = write_log.text(write_log.dossier(source, body))
        comparison.of(whole, True)
        comparison.of(changed(whole, draw))
        places = sorted(draw.choices(range(len(body) + 1), k=draw.randrange(1, 4)))
        several = chain(source, body, places, draw)
        comparison.of(several, True)
        comparison.of(changed(several, draw))
        if made % given.chains == 0:
            for place in range(len(body) + 1):
                comparison.of(chain(source, body, [place], draw), True)
        made += 1
        if made == given.count:
            break
    for answer, count in sorted(comparison.answers.items()):
        print(f"{count:6} {answer}")
    print("sources with", ", ".join(f"{word} {count}" for word, count in sorted(statements.items())))
    print(f"{comparison.cases} texts of {made} sources, {comparison.differ} differ")
    sys.exit(comparison.differ > 0)


if __name__ == "__main__":
    main()
