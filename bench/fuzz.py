#!/usr/bin/env python3
"""Makes inputs and words, valid and spoiled, and compares what a program answers with what plain.py does, byte for byte.

fuzz.py [--count N] [--seed S] [--begin B] [--seconds T] [--with mixed] [--keep FOLDER] [--forgeries] [--limits] PROGRAM

--count N      so many cases, 1,000 where it isn't stated; case number I of a seed is always the same
--seed S       another list of cases, 1 where it isn't stated
--begin B      begins with case B, counted from 0, also of the forgeries and the limits
--seconds T    ends after so many seconds, however many cases are left
--with mixed   the program has the command `mixed` too
--keep FOLDER  keeps the input of each difference there, once with as few lines as show it
--forgeries    in place of cases: some logs with one token left out, put in or changed, in every way that their lines allow
--limits       in place of cases: inputs at each limit of the language and the matrix, and next to it

Cases are made, answered and forgotten one by one. A case that plain.py can't answer within its bound on steps is counted as too
slow and not compared. The status is 1 where there is a difference. Where the time ended the next case is B of another call.
"""
import argparse, collections, itertools, pathlib, random, re, resource, shlex, subprocess, sys, time

from plain import answer
from plain_source import Steps, TooSlow
from plain_words import COMMANDS

STEPS = 400000
MANY_STEPS = 400000000
SECONDS = 60


def ask(program, words, data):
    """What the program answers: its status and text."""
    try:
        done = subprocess.run(program + words, input=data, stdout=subprocess.PIPE, stderr=subprocess.PIPE, timeout=SECONDS)
    except subprocess.TimeoutExpired:
        return "no end", b""
    return done.returncode, done.stdout


class Comparison:
    """Compares answers, and counts cases, statuses and differences."""

    def __init__(self, program, later, keep, steps=STEPS):
        self.program, self.later, self.keep, self.steps = program, later, keep, steps
        self.asked, self.statuses, self.refusals = collections.Counter(), collections.Counter(), collections.Counter()
        self.slow, self.differences = 0, 0

    def plain(self, words, data):
        return answer(words, data, Steps(self.steps), self.later)

    def differs(self, words, data):
        try:
            return self.plain(words, data) != ask(self.program, words, data)
        except TooSlow:
            return False

    def compare(self, name, words, data):
        """Compares the answers to one case."""
        try:
            wanted = self.plain(words, data)
        except TooSlow:
            self.slow += 1
            return
        except Exception:
            self.tell(name, words, data)
            raise
        got = ask(self.program, words, data)
        self.asked[words[0] if words and words[0] in COMMANDS + self.later else "(no command)"] += 1
        self.statuses[got[0]] += 1
        if wanted[0] in (1, 3):
            self.refusals[re.sub("[0-9]+", "N", wanted[1].decode()).strip()] += 1
        if got != wanted:
            self.differences += 1
            data = self.fewer_lines(words, data)
            self.tell(name, words, data)
            print("  plain:  ", *self.plain(words, data))
            print("  program:", *ask(self.program, words, data), flush=True)

    def fewer_lines(self, words, data, tries=200):
        """Leaves out lines as long as the answers still differ."""
        lines, step = data.split(b"\n"), 1 << 10
        while step and tries:
            place = 0
            while place < len(lines) and tries:
                fewer = lines[:place] + lines[place + step:]
                tries -= 1
                if self.differs(words, b"\n".join(fewer)):
                    lines = fewer
                else:
                    place += step
            step //= 2
        return b"\n".join(lines)

    def tell(self, name, words, data):
        print(f"{name}: {shlex.join(words)}\n  input: {data[:2000]!r}", flush=True)
        if self.keep:
            self.keep.mkdir(parents=True, exist_ok=True)
            (self.keep / name.replace(" ", "_")).write_bytes(data)

    def summary(self):
        count = lambda counter: ", ".join(f"{name} {n}" for name, n in sorted(counter.items(), key=str))
        print(f"{sum(self.asked.values())} compared, {self.slow} too slow, {self.differences} differences")
        print(f"commands: {count(self.asked)}\nstatuses: {count(self.statuses)}\nrefusals: {count(self.refusals)}")
        print(f"memory: {resource.getrusage(resource.RUSAGE_SELF).ru_maxrss // 1024} MiB")
        return 1 if self.differences else 0


def made(seed, later):
    """The cases of a seed, without an end."""
    from fuzz_make import case
    for place in itertools.count():
        yield f"seed {seed} case {place}", lambda place=place: case(random.Random(f"{seed} {place}"), later)


def forged():
    from fuzz_forge import forgeries
    for name, data in forgeries():
        yield name, lambda data=data: (["check"], data)


def at_limits():
    from fuzz_limits import limits
    for name, words, data in limits():
        yield name, lambda words=words, data=data: (words, data)


def run_cases(comparison, cases, seconds):
    """Compares the cases one by one until they or the time have ended. Gives how many they were."""
    end, count = time.monotonic() + seconds, 0
    for name, make in cases:
        if time.monotonic() > end:
            break
        count += 1
        try:
            words, data = make()
        except TooSlow:
            comparison.slow += 1
            continue
        comparison.compare(name, words, data)
    return count


def main():
    parser = argparse.ArgumentParser(allow_abbrev=False, usage=__doc__)
    parser.add_argument("--count", type=int, default=1000)
    parser.add_argument("--seed", type=int, default=1)
    parser.add_argument("--begin", type=int, default=0)
    parser.add_argument("--seconds", type=float, default=float("inf"))
    parser.add_argument("--with", dest="later", action="append", default=[])
    parser.add_argument("--keep", type=pathlib.Path)
    parser.add_argument("--forgeries", action="store_true")
    parser.add_argument("--limits", action="store_true")
    parser.add_argument("program", nargs="+")
    chosen = parser.parse_args()
    comparison = Comparison(chosen.program, tuple(chosen.later), chosen.keep)
    cases = forged() if chosen.forgeries else at_limits() if chosen.limits else made(chosen.seed, comparison.later)
    last = None if chosen.forgeries or chosen.limits else chosen.begin + chosen.count
    if chosen.limits or chosen.forgeries:
        comparison.steps = MANY_STEPS
    count = run_cases(comparison, itertools.islice(cases, chosen.begin, last), chosen.seconds)
    print(f"cases {chosen.begin} to {chosen.begin + count - 1}")
    sys.exit(comparison.summary())


if __name__ == "__main__":
    main()
