"""Tests of tools/convert.py and of the readers in tools/dossiers.py: each format is read back, and compared with the program."""
import csv
import io
import json
import os
import re
import subprocess
import sys
import unittest
import xml.etree.ElementTree as tree
from pathlib import Path

ROOT = Path(__file__).resolve().parent.parent
sys.path.insert(0, str(ROOT / "tools"))
if __name__ == "__main__" and len(sys.argv) > 1:
    os.environ["WAKHTSIME_PROGRAM"] = os.path.abspath(sys.argv.pop(1))

import dossiers  # noqa: E402

NAMESPACE = "{http://designtheory.org/xml-namespace}"
FAMILIES = ["fano.df", "biplane_16_in_4_4.df", "rotational_plane_4.df", "plane_with_a_hole.df", "divisible_8.df", "triples_27.df"]
PROBLEMS = ["group 7\nk 3\nlambda 1\n", "group 13\nk 4\nlambda 1\n", "group 6\nfixed 1\nk 3\nlambda 1\n",
            "version 2\ngroup 6\nk 2 3\nlambda 1\nrequire 0 2 4\n", "group 7\nmult 6\nk 3\nlambda 3\n",
            "group 8\nsubgroup N 4\nshift N\nmult 3\nk 4\nlambda 3\n", "group 3 3\nmult 2\nk 3\nlambda 1\n",
            "group 9\nk 3\nlambda 1\n"]


def called(words, text, program=None):
    environment = dict(os.environ, **({"WAKHTSIME_PROGRAM": program} if program else {}))
    call = subprocess.run([sys.executable, str(ROOT / "tools" / "convert.py"), *words], input=text.encode(), capture_output=True,
                          env=environment, check=False)
    return call.returncode, call.stdout.decode(), call.stderr.decode()


def converted(form, text):
    status, answer, told = called([form], text)
    if (status, told) != (0, ""):
        raise AssertionError(f"{form}: status {status} and {told!r}")
    return answer


def blocks_told(lines, word):
    return [line.removeprefix(word).split() for line in lines if line.startswith(word)]


def points_of(text):
    """The names of the points of a source, told by the rows of a table, which the program prints: not by tools/dossiers.py."""
    found = re.findall(r"(?m)^group (.*)$|^fixed (\d+)$", dossiers.answer_of(["show"], text))
    factors = [int(factor) for factor in found[0][0].split()]
    names = [""]
    for factor in factors:
        names = [name + "," + str(residue) for name in names for residue in range(factor)]
    return [name[1:] for name in names] + [f"inf{place + 1}" for place in range(int(found[1][1]))]


def inputs():
    """Each text to convert, with the names of its points and the blocks of its designs, as the program itself prints them."""
    for name in FAMILIES:
        text = (ROOT / "examples" / name).read_text()
        answer = dossiers.answer_of(["verify"], text)
        yield name, text, points_of(text), [blocks_told(answer.split("\n"), "block ")]
    for source in PROBLEMS:
        answer = dossiers.answer_of(["solve", "--blocks"], source)
        designs = [blocks_told(part.split("\n"), "# block ") for part in answer.split("\ndesign ")[1:]]
        plain = dossiers.answer_of(["solve"], source)
        yield source, plain, points_of(source), designs


def numbered(points, designs, first=0):
    """The designs by the numbers of their points, each with its blocks in order."""
    return [sorted(sorted(points.index(name) + first for name in block) for block in design) for design in designs]


def named(points, designs):
    return [[[points[point] for point in block] for block in design] for design in numbered(points, designs)]


class EachFormatIsReadBack(unittest.TestCase):
    def each(self, form, read, wanted):
        count = 0
        for name, text, points, designs in inputs():
            with self.subTest(form=form, name=name):
                self.assertEqual(read(converted(form, text)), wanted(points, designs))
                count += 1
        self.assertEqual(count, len(FAMILIES) + len(PROBLEMS))

    def test_xml(self):
        def read(answer):
            root = tree.fromstring(answer)
            self.assertEqual((root.tag, root.get("design_type"), root.get("dtrs_protocol")),
                             (NAMESPACE + "list_of_designs", "block_design", "2.0"))
            designs = root.findall(f"{NAMESPACE}designs/{NAMESPACE}block_design")
            self.assertEqual(int(root.get("no_designs")), len(designs))
            self.assertEqual(len({design.get("id") for design in designs}), len(designs))
            return [(int(design.get("v")), int(design.get("b")), [[int(point.text) for point in block] for block in
                     design.findall(f"{NAMESPACE}blocks/{NAMESPACE}block")]) for design in designs]
        self.each("xml", read, lambda points, designs: [(len(points), len(design), design) for design in numbered(points, designs)])

    def test_lists(self):
        self.each("lists", lambda answer: [json.loads(line) for line in answer.splitlines()], numbered)

    def test_gap(self):
        def read(answer):
            self.assertRegex(answer, r"\Adesigns := \[\n(.|\n)*\n\];\n\Z")
            found = re.findall(r"(?m)^BlockDesign\((\d+), (\[.*\])\),?$", answer)
            self.assertEqual(len(found), answer.count("BlockDesign"))
            return [(int(points), json.loads(blocks)) for points, blocks in found]
        self.each("gap", read, lambda points, designs: [(len(points), design) for design in numbered(points, designs, 1)])

    def test_incidence(self):
        def read(answer):
            return [[[int(entry) for entry in line.split(" ")] for line in part.splitlines()] for part in answer.split("\n\n") if part]

        def matrix(points, design):
            return [[int(point in block) for block in design] for point in range(len(points))]
        self.each("incidence", read, lambda points, designs: [matrix(points, design) for design in numbered(points, designs)])

    def test_csv(self):
        def read(answer):
            rows = list(csv.reader(io.StringIO(answer)))
            self.assertEqual(rows[0], ["design", "block", "place", "point"])
            return [[int(design), int(block), int(place), point] for design, block, place, point in rows[1:]]

        def rows(points, designs):
            return [[number, block_number, place, name] for number, design in enumerate(named(points, designs), 1)
                    for block_number, block in enumerate(design, 1) for place, name in enumerate(block, 1)]
        self.each("csv", read, rows)

    def test_latex(self):
        def read(answer):
            self.assertEqual(answer.count("\\begin{array}"), answer.count("\\end{array}"))
            parts = answer.split("\\[\n")[1:]
            return [[[point_name(point) for point in block.split(", ")] for block in re.findall(r"\\\{(.*)\\\}", part)] for part in parts]

        def point_name(point):
            return re.sub(r"\\infty_\{(\d+)\}", r"inf\1", point).strip("()")
        self.each("latex", read, named)

    def test_dot(self):
        def read(answer):
            graphs = answer.split("graph ")[1:]
            return [graph_read(graph) for graph in graphs]

        def graph_read(graph):
            nodes = re.findall(r'(?m)^  "([^"]*)";$', graph)
            blocks = [[] for node in nodes if node.startswith("block ")]
            for point, block in re.findall(r'(?m)^  "([^"]*)" -- "block (\d+)";$', graph):
                blocks[int(block) - 1].append(point)
            return [node for node in nodes if not node.startswith("block ")], blocks
        self.each("dot", read, lambda points, designs: [(points, design) for design in named(points, designs)])


class Chains(unittest.TestCase):
    def test_all_designs_of_a_chain_are_converted(self):
        source = "group 13\nk 4\nlambda 1\n"
        whole = converted("lists", dossiers.answer_of(["solve"], source))
        status, piece = dossiers.run_program(["solve", "--budget", "3"], source)
        chain = piece
        while status == 7:
            status, piece = dossiers.run_program(["resume", "--budget", "3", "--log"], piece)
            chain += piece
        self.assertGreater(chain.count("\nend spent"), 1)
        self.assertEqual(converted("lists", chain), whole)
        self.assertEqual(len(whole.splitlines()), 4)

    def test_the_empty_design(self):
        source = "group 3\nk 2\nlambda 0\n"
        self.assertEqual(converted("lists", dossiers.answer_of(["solve"], source)), "[]\n")


class Refusals(unittest.TestCase):
    def refused(self, words, text, status, told):
        found = called(words, text)
        self.assertEqual((found[0], found[1]), (status, ""))
        self.assertIn(told, found[2])
        self.assertEqual(found[2].count("\n"), 1)

    def test_wrong_words(self):
        for words in ([], ["pdf"], ["xml", "csv"], ["--log"]):
            self.refused(words, "", 2, "one format is wanted")

    def test_a_family_that_is_not_what_it_states(self):
        self.refused(["csv"], "group 7\nk 3\nlambda 2\nbase 0 1 3\n", 1, "refused diff 1 found 1 stated 2")

    def test_no_source(self):
        self.refused(["csv"], "grou 7\n", 3, "source refused line 1 BadWord")
        self.refused(["csv"], "", 3, "source refused line 0 Missing group")

    def test_a_dossier_that_is_cut(self):
        whole = dossiers.answer_of(["solve"], "group 7\nk 3\nlambda 1\n")
        self.refused(["csv"], whole[:whole.index("end")], 3, "a dossier has no end line")
        self.refused(["csv"], whole + "design 0 1 3\n", 3, "a dossier has to begin here")
        self.refused(["csv"], whole.replace("source 6", "source six"), 3, "line 2: a number is missing")

    def test_no_program(self):
        found = called(["csv"], "group 7\n", program="/nowhere/df_main")
        self.assertEqual(found[:2], (9, ""))

    def test_help(self):
        status, answer, told = called(["--help"], "")
        self.assertEqual((status, told), (0, ""))
        for word in ("No proof is claimed", "xml", "incidence", "lists", "gap", "latex", "csv", "dot"):
            self.assertIn(word, answer)


if __name__ == "__main__":
    unittest.main()
