"""Tests of tools/picture.py: what is drawn is read back from the SVG and compared with the program."""
import os
import re
import subprocess
import sys
import unittest
import xml.etree.ElementTree as tree
from pathlib import Path

ROOT = Path(__file__).resolve().parent.parent
sys.path.insert(0, str(ROOT / "tools"))
if __name__ == "__main__" and len(sys.argv) > 1:
    os.environ["WAKHTSIME_PROGRAM"] = os.path.abspath(sys.argv.pop(1))

import dossiers  # noqa: E402

SVG = "{http://www.w3.org/2000/svg}"
EXAMPLES = ROOT / "examples"


def called(words, text):
    call = subprocess.run([sys.executable, str(ROOT / "tools" / "picture.py"), *words], input=text, capture_output=True, text=True,
                          check=False)
    return call.returncode, call.stdout, call.stderr


def picture(words, text):
    status, answer, told = called(words, text)
    if (status, told) != (0, ""):
        raise AssertionError(f"{words}: status {status} and {told!r}")
    root = tree.fromstring(answer)
    if root.tag != SVG + "svg":
        raise AssertionError(root.tag)
    return root


def of_class(root, tag, kind):
    return [node for node in root.iter(SVG + tag) if node.get("class") == kind]


class Incidence(unittest.TestCase):
    def cells(self, root):
        """The columns of the matrix that is drawn, each as its rows, in order."""
        frame = of_class(root, "rect", "frame")[0]
        left, top = int(frame.get("x")), int(frame.get("y"))
        found = {}
        for cell in of_class(root, "rect", "cell"):
            column, row = (int(cell.get("x")) - left) // int(cell.get("width")), (int(cell.get("y")) - top) // int(cell.get("height"))
            found.setdefault(column, []).append(row)
        return [found[column] for column in sorted(found)]

    def test_the_matrix_of_a_family(self):
        for name in ("fano.df", "rotational_plane_4.df", "biplane_16_in_4_4.df"):
            text = (EXAMPLES / name).read_text()
            root = picture(["incidence"], text)
            names = [node.text for node in root.iter(SVG + "text")]
            answer = dossiers.answer_of(["verify"], text)
            blocks = [line.split()[1:] for line in answer.split("\n") if line.startswith("block")]
            self.assertEqual(self.cells(root), sorted(sorted(names.index(point) for point in block) for block in blocks))

    def test_a_design_of_a_dossier(self):
        answer = dossiers.answer_of(["solve", "--blocks"], "group 7\nk 3\nlambda 1\n")
        for number in (1, 2):
            part = answer.split("\ndesign ")[number]
            blocks = sorted([int(point) for point in line.split()[2:]] for line in part.split("\n") if line.startswith("# block"))
            self.assertEqual(self.cells(picture(["incidence", "--design", str(number)], answer)), blocks)


class Circle(unittest.TestCase):
    def blocks(self, root):
        words = [node.text for node in root.iter(SVG + "text") if (node.text or "").startswith("block ")]
        return [word.split()[1:] for word in words]

    def test_base_blocks_and_differences(self):
        root = picture(["circle"], (EXAMPLES / "triples_13.df").read_text())
        self.assertEqual(len(self.blocks(root)), 2)
        titles = [node.text for node in root.iter(SVG + "title")]
        found = [re.fullmatch(r"(\d+) and (\d+): difference (\d+) or (\d+)", title) for title in titles]
        self.assertEqual(len(of_class(root, "line", "chord")), len(found))
        for match in found:
            one, other, least, most = map(int, match.groups())
            self.assertEqual({(one - other) % 13, (other - one) % 13}, {least, most})
        self.assertEqual(sorted(int(match[3]) for match in found), [1, 2, 3, 4, 5, 6])
        told = [int(word) for node in root.iter(SVG + "text") if (node.text or "").startswith("differences ")
                for word in node.text.split()[1:]]
        self.assertEqual(sorted(told), list(range(1, 13)))

    def test_equal_differences_have_one_colour(self):
        root = picture(["circle"], (EXAMPLES / "biplane_11.df").read_text())
        colours = {}
        for line in of_class(root, "line", "chord"):
            least = re.search(r"difference (\d+)", line[0].text)[1]
            colours.setdefault(least, set()).add(line.get("stroke"))
        self.assertEqual(sorted(colours), ["1", "2", "3", "4", "5"])
        self.assertTrue(all(len(found) == 1 for found in colours.values()))
        self.assertEqual(len(set.union(*colours.values())), 5)
        self.assertEqual(len(of_class(root, "circle", "point")), 5)

    def test_points_stand_on_the_circle(self):
        root = picture(["circle"], "group 4\nk 2\nlambda 1\nbase 0 1\nshort 0 2\n")
        groups = of_class(root, "g", "block")
        places = [[(float(node.get("cx")), float(node.get("cy"))) for node in of_class(group, "circle", "point")] for group in groups]
        self.assertEqual(places, [[(130, 40), (220, 130)], [(130, 40), (130, 220)]])

    def test_fixed_points_and_dossiers(self):
        text = dossiers.answer_of(["solve"], "group 8\nfixed 1\nmult 5\nk 3\nlambda 3\n")
        designs = [line.split(maxsplit=1)[1] for line in text.split("\n") if line.startswith("design")]
        self.assertEqual(len(designs), 4)
        for number, design in enumerate(designs, 1):
            root = picture(["circle", "--design", str(number)], text)
            self.assertEqual(self.blocks(root), [block.split() for block in design.split(" ; ")])
            fixed = [node for node in root.iter(SVG + "text") if node.text == "inf1"]
            self.assertEqual(len(fixed), design.count("inf1"))


class Refusals(unittest.TestCase):
    def refused(self, words, text, status, told):
        found = called(words, text)
        self.assertEqual(found[:2], (status, ""))
        self.assertIn(told, found[2])
        self.assertEqual(found[2].count("\n"), 1)

    def test_wrong_words(self):
        for words in ([], ["square"], ["circle", "--design"], ["circle", "--design", "0"], ["circle", "2"], ["circle", "--design", "x"]):
            self.refused(words, "", 2, "incidence or circle is wanted")

    def test_bad_input(self):
        self.refused(["circle"], (EXAMPLES / "biplane_16_in_4_4.df").read_text(), 3, "one factor")
        self.refused(["incidence"], "group 7\nk 3\nlambda 2\nbase 0 1 3\n", 1, "refused diff 1 found 1 stated 2")
        self.refused(["incidence"], "group 0\n", 3, "source refused line 1 GroupRange")
        self.refused(["incidence", "--design", "3"], dossiers.answer_of(["solve"], "group 7\nk 3\nlambda 1\n"), 3, "no design 3")
        self.refused(["circle", "--design", "2"], (EXAMPLES / "fano.df").read_text(), 3, "no design 2")

    def test_help(self):
        status, answer, _ = called(["--help"], "")
        self.assertEqual(status, 0)
        self.assertIn("No proof is claimed", answer)


if __name__ == "__main__":
    unittest.main()
