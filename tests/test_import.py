"""Tests of the tool 'import': lists in the spellings of Sage, GAP, books and papers, each judged by the program."""
import os
import subprocess
import sys
import unittest
from pathlib import Path

TOOL = Path(__file__).resolve().parent.parent / "tools/import.py"
PROGRAM = os.environ["WAKHTSIME_PROGRAM"]

FANO = ["group 7", "k 3", "lambda 1", "short 0 1 3"]
TRIPLES_13 = ["group 13", "k 3", "lambda 1", "short 0 1 4", "short 0 2 7"]
TRIPLES_15 = ["group 15", "k 3", "lambda 1", "short 0 1 4", "short 0 2 8", "short 0 5 10"]
PLANE_25 = ["group 5 5", "k 4", "lambda 1", "short 0,0 0,1 1,0 2,2", "short 0,0 0,2 2,0 4,4"]
PLANE_3 = ["group 8", "fixed 1", "k 3", "lambda 1", "short 0 4 inf1", "short 0 1 3"]
# from the resolvable design on 4 points: the pairs of 3 points that turn, and of each with a fixed one
PAIRS = ["group 3", "fixed 1", "k 2", "lambda 1", "short 0 inf1", "short 1 2"]
SQUARES_16 = ["group 2 2 4", "k 6", "lambda 2", "short 0,0,0 0,0,1 0,0,2 0,1,0 1,0,0 1,1,3"]

# a list, the words, and the source that it states
LISTS = [
    # Sage
    ("[[0, 1, 3]]\n", "--group 7", FANO),
    ("sage: D\n[[0, 1, 4], [0, 2, 7]]\n", "--group 13 --lambda 1", TRIPLES_13),
    ("[(0, 1, 4), (0, 2, 7)]", "--group 13", TRIPLES_13),
    ("[[0, 1, 4], [0, 2, 7]]", "", TRIPLES_13),
    ("(Ring of integers modulo 13, [[0, 1, 4], [0, 2, 7]])", "", TRIPLES_13),
    ("[[0, 1, 4],\n [0, 2, 8],\n [0, 5, 10]]\n", "--group 15 --lambda 1", TRIPLES_15),
    ("(13, 3, 1): {(13,): [[0,1,4],[0,2,7]]},", "", TRIPLES_13),
    ("( 25, 4, 1):\n  {(5,5): [[(0,0),(0,1),(1,0),(2,2)],\n           [(0,0),(0,2),(2,0),(4,4)]]},\n", "", PLANE_25),
    ("{(13,): [[0,1,4],[0,2,7]]}", "", TRIPLES_13),
    ("[[(0,0),(0,1),(1,0),(2,2)],[(0,0),(0,2),(2,0),(4,4)]]", "", PLANE_25),
    ("[((0, 0), (0, 1), (1, 0), (2, 2)), ((0, 0), (0, 2), (2, 0), (4, 4))]", "--group 5,5", PLANE_25),
    ("[(0,), (1,), (3,)]", "--group 7", FANO),
    ("[[+Infinity, 0, 4], [0, 1, 3]]", "--group 8", PLANE_3),
    # GAP
    ("[ [ 1, 2, 4 ] ]\n", "--group 7 --from 1", FANO),
    ("gap> D := [ [ 1, 2, 5 ], [ 1, 3, 8 ] ];\n", "--group 13 --from 1", TRIPLES_13),
    ("[ [ 1, 5, 9 ], [ 1, 2, 4 ] ]", "--group 8 --fixed 1 --from 1", PLANE_3),
    ("[ [ 1, 5, infinity ], [ 1, 2, 4 ] ]", "--group 8 --from 1", PLANE_3),
    ("[ [ [ 1, 1 ], [ 1, 2 ], [ 2, 1 ], [ 3, 3 ] ], [ [ 1, 1 ], [ 1, 3 ], [ 3, 1 ], [ 5, 5 ] ] ]", "--group 5 5 --from 1", PLANE_25),
    # books and papers
    ("(0,1,4) (0,2,7)", "--group 13", TRIPLES_13),
    ("(0,1,4), (0,2,7) (mod 13)", "", TRIPLES_13),
    ("{0,1,4}, {0,2,7} mod 13", "", TRIPLES_13),
    ("(13,3,1)-difference family: {0,1,4}, {0,2,7}", "", TRIPLES_13),
    ("(v,k,\u03bb) = (13,3,1): {0,1,4}, {0,2,7}", "", TRIPLES_13),
    ("$\\{0,1,4\\}, \\{0,2,7\\}$ over $\\mathbb{Z}_{13}$, $\\lambda = 1$", "", TRIPLES_13),
    ("B_1 = {0, 1, 4}\nB_2 = {0, 2, 7}\n", "--lambda 1", TRIPLES_13),
    ("0,0 0,1 1,0 2,2\n0,0 0,2 2,0 4,4\n", "", PLANE_25),
    ("(0,0),(0,1),(1,0),(2,2); (0,0),(0,2),(2,0),(4,4)", "--group 5 5", PLANE_25),
    ("00 01 10 22\n00 02 20 44\n", "--group 5 5", PLANE_25),
    ("{(0,0),(0,1),(1,0),(2,2)}\n{(0,0),(0,2),(2,0),(4,4)} in Z_5 x Z_5", "", PLANE_25),
    ("{(0,0),(0,1),(1,0),(2,2)} {(0,0),(0,2),(2,0),(4,4)} over Z_5^2", "", PLANE_25),
    ("{(0,0),(0,1),(1,0),(2,2)}, {(0,0),(0,2),(2,0),(4,4)} mod (5,5)", "", PLANE_25),
    ("(\u221e,0,4) (0,1,3)", "--group 8", PLANE_3),
    ("{\u221e_1, 0, 4} {0, 1, 3}", "--group 8", PLANE_3),
    ("{\u221e_0, 0, 4} {0, 1, 3}", "--group 8", PLANE_3),
    ("\u27e8\\infty, 0, 4\u27e9, \u27e80, 1, \u22125\u27e9 (mod 8)", "", PLANE_3),
    ("{0, 1, 3}, {0, 4, oo}", "--group 8", [*PLANE_3[:4], *PLANE_3[:3:-1]]),
    ("1. 0 1 4\n2. 0 2 7\n", "--group 13", TRIPLES_13),
    ("1: 0 1 4\n2: 0 2 7\n", "--group 13", TRIPLES_13),
    ("The base blocks are {0,1,4} and {0,2,7}.", "--group 13", TRIPLES_13),
    ("B = {0,1,4}; {0,2,\n7}", "--group 13", TRIPLES_13),
    # a block a line
    ("0 1 4\n0 2 7\n", "--group 13", TRIPLES_13),
    ("# two blocks\n\n0, 1, 4\r\n0, 2, 7", "--group 13", TRIPLES_13),
    ("\ufeff0\t1\t4\n7,2,0\n", "--group 13", TRIPLES_13),
    ("inf1 0 4\n0 1 3\n", "--group 8", PLANE_3),
    ("oo 0\n1 2\n", "", PAIRS),
    ('[["0","1","4"],["0","2","7"]]', "--group 13", TRIPLES_13),
    ('[["0,0","0,1","1,0","2,2"],["0,0","0,2","2,0","4,4"]]', "", PLANE_25),
    ("[[(0,0,0),(0,0,1),(0,0,2),(0,1,0),(1,0,0),(1,1,3)]]", "--group 2 2 4 --lambda 2", SQUARES_16),
]

# a list, the words, and what is said of it
FAULTS = [
    ("", "--group 7", "the list has 0 blocks"),
    ("[[0,1,3]]", "", "choose --group 4 (lambda 2) or --group 7 (lambda 1)"),
    ("[[0,1,7]]", "--group 7", "line 1: 7 is no point of the group 7"),
    ("0 1 3\n1 2 foo\n", "--group 7", "line 2: 'foo' is no point"),
    ("0 1 3\n[1, 2", "--group 7", "line 2: '[' is never closed"),
    ("[1, 2)", "--group 7", "line 1: ')' closes no bracket"),
    ("0 1 1", "--group 7", "line 1: the point 1 stands twice"),
    ("[0]", "--group 7", "line 1: a block has 1 points"),
    (" ".join(map(str, range(17))), "--group 31", "line 1: a block has 17 points"),
    ("[[0,1,[3]],[2,[4,5]]]", "--group 7", "line 1: a bracket is no point"),
    ("[[0, 1], [2, 3]]", "--group 2 2", "line 1: 2,3 is no point"),
    ("[[a + 1, 0]]", "--group 7", "line 1: 'a' is no point"),
    ("[[a, 0, 1, 3]]", "--group 7", "line 1: 'a' is no point"),
    ("[[0,1,2]]", "--group 9", "give --lambda"),
    ("[[0,1,2,4]]", "--lambda 5", "in no group"),
    ("{inf1 0 inf2 1}", "--group 7 --fixed 1", "names 2 fixed points"),
    ("{0 1 3} mod 7\n{0 1 3} mod 8", "", "line 2: 'mod 8' is another group"),
    ("[[0,1,3]] in Z_200", "", "the group 200 isn't one of the program's"),
    ("{(13,): [[0,1,4],[0,2,7]], (7,): [[0,1,3]]}", "", "groups 13, 7: choose one by --group"),
]

USAGE = ["--group", "--group x", "--group 1 2 3 4 5 6 7 8", "--lambda", "--lambda 1 2", "--from 2", "--fixed 17", "list.txt", "--group 7 --group 7"]


def run(text, words):
    """The status of the tool, what it writes, and what it says."""
    done = subprocess.run([sys.executable, TOOL, *words.split()], input=text.encode(), capture_output=True)
    return done.returncode, done.stdout.decode(), done.stderr.decode()


class ImportTest(unittest.TestCase):
    def test_lists(self):
        for text, words, source in LISTS:
            with self.subTest(text=text, words=words):
                status, written, said = run(text, words)
                self.assertEqual((status, written.splitlines()), (0, source), said)

    def test_sources_are_accepted(self):
        for source in (FANO, TRIPLES_13, TRIPLES_15, PLANE_25, PLANE_3, PAIRS, SQUARES_16):
            done = subprocess.run([PROGRAM, "verify"], input="\n".join(source).encode(), capture_output=True)
            self.assertEqual((done.returncode, done.stdout[:8]), (0, b"accepted"), source)

    def test_faults(self):
        for text, words, told in FAULTS:
            with self.subTest(text=text, words=words):
                status, written, said = run(text, words)
                self.assertEqual((status, written), (3, ""), said)
                self.assertIn(told, said)

    def test_usage(self):
        for words in USAGE:
            with self.subTest(words=words):
                status, written, said = run("[[0,1,3]]", words)
                self.assertEqual((status, written, said.count("\n")), (2, "", 1), said)
                self.assertIn("usage: import", said)

    def test_help(self):
        status, written, said = run("", "--group 7 --help")
        self.assertEqual((status, said), (0, ""))
        self.assertIn("No proof is claimed", written)

    def test_what_is_guessed_is_told(self):
        _, _, said = run("[[0,1,4],[0,2,7]]", "")
        self.assertIn("group 13: guessed", said)
        self.assertIn("lambda 1: guessed", said)
        _, _, said = run("{inf 0 4} {0 1 3} mod 8", "--lambda 1")
        self.assertEqual(said.splitlines()[:2], ["import: group 8: told by the list", "import: fixed 1: told by the list"])
        _, _, said = run("[[0,1,4],[0,2,7]]", "--group 13 --lambda 1")
        self.assertEqual(said, "")

    def test_short_blocks_are_told(self):
        _, _, said = run("0 1 4\n0 2 8\n0 5 10\n", "--group 15 --lambda 1")
        self.assertEqual(said, "import: block 3 (0 5 10) is short: 3 translations keep it, so it counts for 5 blocks and not for 15\n")

    def test_wrong_families_are_written_too(self):
        status, written, said = run("[[0,1,4],[0,2,6]]", "--group 13")
        self.assertEqual((status, written.splitlines()), (0, [*TRIPLES_13[:4], "short 0 2 6"]))
        self.assertIn("lambda 1: guessed by the number of blocks; but", said)

    def test_sizes(self):
        status, written, _ = run("0 1 3\n0 1 2 4\n", "--group 7 --lambda 3")
        self.assertEqual((status, written.splitlines()[:3]), (0, ["version 2", "group 7", "k 3 4"]))

    def test_text_that_is_no_text(self):
        done = subprocess.run([sys.executable, TOOL], input=b"\xff\xfe0", capture_output=True)
        self.assertEqual((done.returncode, done.stdout), (3, b""))


if __name__ == "__main__":
    unittest.main()
