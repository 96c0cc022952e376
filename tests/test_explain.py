"""Tests of the tool 'explain': what it says of refused families and of refused sources."""
import os
import subprocess
import sys
import tempfile
import unittest
from pathlib import Path

ROOT = Path(__file__).resolve().parent.parent
TOOL = ROOT / "tools/explain.py"
PROGRAM = os.environ["WAKHTSIME_PROGRAM"]

# a source, and lines of which each is to be said as it stands
FAMILIES = [
    (
        "group 7\nk 3\nlambda 2\n# the plane of order 2\nbase 0 1 3\n",
        [
            "The family is refused: 6 of the 6 rows of the difference table are wrong.",
            "diff 1 found 1 stated 2: 1 missing",
            "  block 1 (line 5: base 0 1 3): 0 1",
            "diff 6 found 1 stated 2: 1 missing",
            "  block 1 (line 5: base 0 1 3): 1 0",
            "The family is accepted with 'lambda 1'.",
            "The family is accepted with a line 'short 0 1 3' more.",
        ],
    ),
    (
        "group 15\nk 3\nlambda 1\nbase 0 1 4\nbase 0 2 8\nbase 0 5 10\n",
        [
            "The family is refused: 2 of the 14 rows of the difference table are wrong.",
            "diff 5 found 3 stated 1: 2 too many",
            "  block 3 (line 6: base 0 5 10): 0 5; 5 10; 10 0",
            "The translations 0 5 10 keep block 3 (line 6: base 0 5 10): it counts for 15, and as 'short' for 5 blocks.",
            "The family is accepted with 'short' in line 6.",
        ],
    ),
    (
        "group 13\nk 3\nlambda 1\nbase 0 1 4\n",
        ["diff 2 found 0 stated 1: 1 missing", "  no block gives it", "The family is accepted with a line 'short 0 2 7' more."],
    ),
    (
        "group 13\nk 3\nlambda 1\nbase 0 1 4\nbase 0 2 7\nshort 3 4 7\n",
        [
            "diff 1 found 2 stated 1: 1 too many",
            "  block 1 (line 4: base 0 1 4): 0 1",
            "  block 3 (line 6: short 3 4 7): 3 4",
            "The family is accepted without block 1 (line 4: base 0 1 4).",
            "The family is accepted without block 3 (line 6: short 3 4 7).",
        ],
    ),
    (
        "group 13\nk 3\nlambda 1\nbase 0 1 4\nbase 0 2 6\n",
        ["The family is accepted with 7 in place of 6 in block 2 (line 5: base 0 2 6)."],
    ),
    (
        "group 8\nfixed 1\nk 3\nlambda 1\nbase 0 1 3\nbase 0 4 inf1\n",
        [
            "fixed inf1 found 2 stated 1: 1 too many",
            "  block 2 (line 6: base 0 4 inf1): 0 inf1; 4 inf1",
            "The family is accepted with 'short' in line 6.",
        ],
    ),
    (
        "group 3\nfixed 3\nk 3\nlambda 3\nbase inf1 inf2 inf3\n",
        ["The translations 0 1 2 keep block 1 (line 5: base inf1 inf2 inf3): it counts for 3, and as 'short' for 1 blocks."],
    ),
    (
        "group 2 4\nk 3\nlambda 1\nsubgroup N 0,2\ninside N 0\nbase 0,0 0,1 0,2\n",
        [
            "diff 0,2 found 2 stated 0: 2 too many",
            "  block 1 (line 6: base 0,0 0,1 0,2): 0,0 0,2; 0,2 0,0",
            "No change of a word, a target, a block or a point was found with which the family is accepted.",
            "Missing: 1,0 (1), 1,1 (1), 1,2 (1), 1,3 (1).",
            "Too many: 0,1 (1), 0,2 (2), 0,3 (1).",
        ],
    ),
    ("group 7\nk 3\nlambda 1\n", ["The source has no 'base' and no 'short' line. './wakhtsime solve' looks for families."]),
    ("group 7\nk 3\nlambda 1\nbase 0 1 3\n", ["The family is accepted, and has 7 blocks."]),
]

# a source, the fault, the token, and what is said beside the rule
SOURCES = [
    ("group 7\nk 3\nlambda 1\nbase 0 1 7\n", "BadElement in line 4", "'7', number 4", "begin with 0 and are below"),
    ("group 7\nk 3\nlambda 1\nbase 0 1 inf\n", "BadElement in line 4", "'inf', number 4", "as inf1"),
    ("group 7\nk 3\nlambda 1\nbase 0 1 inf1\n", "BadElement in line 4", "'inf1', number 4", "state 0 fixed points"),
    ("group 7\nfixed 1\nk 3\nlambda 1\nbase 0 1 \u221e\n", "BadElement in line 5", "'\u221e', number 4", "as inf1"),
    ("group 5 5\nk 3\nlambda 1\nbase 0 1 3\n", "BadElement in line 4", "'0', number 2", "has 2 factors"),
    ("group 7\nk 3\nlambda 1\nbase [0, 1, 3]\n", "BadElement in line 4", "'[0,', number 2", "wakhtsime import"),
    ("group 7\nk 3\n\nlambda 1 # one\nbase 0 1 01\n", "PointTwice in line 5", "'01', number 4", ""),
    ("group 7\nk 3\nlambda 1\nbase 0 1 2 3\n", "BlockSize in line 4", "", "has 4 points"),
    ("group 7\nk 3\nlambda x\n", "BadNumber in line 3", "'x', number 2", ""),
    ("group 7\nk 3\nlambda 18446744073709551616\n", "BadNumber in line 3", "'18446744073709551616', number 2", ""),
    ("group 7\nk 3\nlambda\n", "BadWord in line 3", "missing at the end", ""),
    ("group 7\nk 3\nlambda 1 2\n", "BadWord in line 3", "'2', number 3", ""),
    ("group 7\nk 3 4\n", "BadWord in line 2", "'4', number 3", "'version 2' the first line"),
    ("group 7\nrequire 0 1 3\n", "BadWord in line 2", "'require', number 1", "are of version 2"),
    ("[[0,1,3]]\n", "BadWord in line 1", "'[[0,1,3]]', number 1", "wakhtsime import"),
    ("version 1\ngroup 7\n", "BadNumber in line 1", "'1', number 2", "Version 1 has no such line"),
    ("group 7\nversion 2\n", "BadWord in line 2", "'version', number 1", "first line of a source"),
    ("\ufeffgroup 7\n", "BadWord in line 1", "group', number 1", "byte order mark"),
    ("group 7\ngroup 7\n", "Repeated in line 2", "", "above in line 1"),
    ("group 7\nsubgroup N 0\nsubgroup M 1\nsubgroup N 1\n", "NameTaken in line 4", "'N', number 2", "above in line 2"),
    ("group 7\nsubgroup all 1\n", "NameTaken in line 2", "'all', number 2", ""),
    ("group 7\nsubgroup 7 1\n", "BadWord in line 2", "'7', number 2", ""),
    ("group 7\nsubgroup N 1 7\n", "BadElement in line 2", "'7', number 4", ""),
    ("group 7\nshift N\n", "UnknownName in line 2", "'N', number 2", ""),
    ("group 7\nk 3\nlambda 1\ninside all x\n", "BadNumber in line 4", "'x', number 3", ""),
    ("group 12\nmult 5 9\n", "NotUnit in line 2", "'9', number 3", "exponent of the group is 12"),
    ("group 2 1\n", "GroupRange in line 1", "'1', number 3", ""),
    ("group 64 4\n", "GroupRange in line 1", "'4', number 3", ""),
    ("group 2 2 2 2 2 2 2 2\n", "GroupRange in line 1", "'2', number 9", ""),
    ("group 2 2 2 2 2 2 2 x\n", "BadNumber in line 1", "'x', number 9", ""),
    ("group 7\nfixed 17\n", "FixedRange in line 2", "'17', number 2", ""),
    ("group 7\nk 17\n", "SizeRange in line 2", "'17', number 2", ""),
    ("version 2\ngroup 7\nk 3 8\n", "SizeRange in line 3", "'8', number 3", ""),
    ("group 7\nk 3\nlambda 2000001\n", "TargetRange in line 3", "'2000001', number 2", ""),
    ("k 3\n", "Missing group in line 1", "", "has to stand above"),
    ("group 7\nk 3\n", "Missing lambda at its end", "", ""),
    ("group 7\nk 2\nlambda 1\n" + 4097 * "base 0 1\n", "TooManyBlocks in line 4100", "", ""),
]


def run(text, *words, program=PROGRAM):
    """The status of the tool, what it writes, and what it says."""
    environment = dict(os.environ, WAKHTSIME_PROGRAM=str(program))
    done = subprocess.run([sys.executable, TOOL, *words], input=text.encode(), capture_output=True, env=environment)
    return done.returncode, done.stdout.decode(), done.stderr.decode()


class ExplainTest(unittest.TestCase):
    def test_families(self):
        for text, lines in FAMILIES:
            with self.subTest(text=text):
                status, written, said = run(text)
                self.assertEqual((status, said), (0 if "accepted, and" in lines[0] else 1, ""))
                for line in lines:
                    self.assertIn(line, written.splitlines())

    def test_each_wrong_row_is_there_and_is_given_by_what_stands_below_it(self):
        files = [*ROOT.glob("examples/*.df"), *ROOT.glob("examples/changed/*.df")]
        self.assertGreater(len(files), 40)
        refused = 0
        for path in files:
            text = path.read_text()
            if "# Answer: refused" not in text:
                continue
            refused += 1
            table = subprocess.run([PROGRAM, "table"], input=text.encode(), capture_output=True).stdout.decode()
            wrong = [row for row in table.splitlines() if row.split()[-3] != row.split()[-1]]
            status, written, said = run(text)
            rows = [line.split(":")[0] for line in written.splitlines() if line.startswith(("diff", "fixed"))]
            self.assertEqual((status, rows, said), (1, wrong, ""), path)
        self.assertGreater(refused, 20)

    def test_changes_that_are_told_are_accepted(self):
        status, written, _ = run("group 13\nk 3\nlambda 1\nbase 0 1 4\nbase 0 2 6\n")
        told = [line.split() for line in written.splitlines() if " in place of " in line]
        self.assertTrue(told)
        for words in told:
            new, old = words[words.index("with") + 1], words[words.index("of") + 1]
            block = " ".join(new if point == old else point for point in ["0", "2", "6"])
            source = f"group 13\nk 3\nlambda 1\nbase 0 1 4\nbase {block}\n"
            self.assertEqual(subprocess.run([PROGRAM, "verify"], input=source.encode(), capture_output=True).returncode, 0)

    def test_sources(self):
        for text, fault, token, more in SOURCES:
            with self.subTest(text=text[:60]):
                status, written, said = run(text)
                self.assertEqual((status, said), (3, ""))
                self.assertEqual(f"The source is refused: {fault}.", written.splitlines()[0])
                self.assertEqual("The token: " in written, token != "")
                self.assertIn(token, written)
                self.assertIn(more, written)
                self.assertIn("The rule: ", written)

    def test_every_fault_has_its_rule(self):
        faults = {fault.split(" in line ")[0].split(" at its")[0] for _, fault, _, _ in SOURCES} | {"Missing k"}
        from source_faults import RULES

        self.assertEqual(set(RULES), faults)
        rows = (ROOT / "docs/LANGUAGE.md").read_text().split("## What is wrong")[1].split("##")[0]
        for fault in faults:
            self.assertIn(f"`{fault}`", rows)

    def test_a_program_that_counts_otherwise_is_told(self):
        with tempfile.TemporaryDirectory() as folder:
            program = Path(folder) / "program"
            program.write_text(f"#!/bin/sh\n'{PROGRAM}' \"$@\" | sed 's/diff 1 found 1/diff 1 found 3/'\nexit 1\n")
            program.chmod(0o755)
            status, written, said = run("group 7\nk 3\nlambda 2\nbase 0 1 3\n", program=program)
        self.assertEqual((status, written), (1, ""))
        self.assertIn("counts 1 and the program 3", said)

    def test_words(self):
        status, written, said = run("", "x")
        self.assertEqual((status, written, said.count("\n")), (2, "", 1))
        status, written, said = run("", "--help")
        self.assertEqual((status, said), (0, ""))
        self.assertIn("No proof is claimed", written)
        status, written, said = run("", program="/nowhere")
        self.assertEqual((status, written, said.count("\n")), (9, "", 1))

    def test_long_inputs(self):
        status, written, said = run("#" + " " * 1048576)
        self.assertEqual((status, written, said.count("\n")), (8, "", 1))


if __name__ == "__main__":
    unittest.main()
