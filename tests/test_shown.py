"""Tests that what the documents show is what is printed."""
import os
import re
import subprocess
import sys
import tempfile
import unittest
from pathlib import Path

ROOT = Path(__file__).resolve().parent.parent
PROGRAM = os.environ["WAKHTSIME_PROGRAM"]


class DocumentsTest(unittest.TestCase):
    def setUp(self):
        folder = tempfile.TemporaryDirectory()
        self.addCleanup(folder.cleanup)
        self.folder = Path(folder.name)
        (self.folder / "examples").symlink_to(ROOT / "examples")
        launcher = self.folder / "wakhtsime"
        launcher.write_text(
            "#!/bin/sh\n"
            f"if [ -f '{ROOT}/tools/'$1.py ]; then tool=$1; shift; exec '{sys.executable}' '{ROOT}/tools/'$tool.py \"$@\"; fi\n"
            f"exec '{PROGRAM}' \"$@\"\n"
        )
        launcher.chmod(0o755)

    def run_line(self, line):
        return subprocess.run(["sh", "-c", line], cwd=self.folder, capture_output=True, text=True).stdout

    def test_the_readme(self):
        text = (ROOT / "README.md").read_text()
        shown = [part for part in re.findall(r"```\n(.*?)```", text, re.DOTALL) if part.startswith("$")]
        self.assertGreater(len(shown), 1)
        for part in shown:
            for command in part.split("$ ")[1:]:
                line, wanted = command.split("\n", 1)
                self.assertEqual(self.run_line(line), wanted, line)
        self.assertLessEqual(len(text.splitlines()), 150)

    def test_lines_of_awk(self):
        text = (ROOT / "docs/FORMATS.md").read_text()
        packing, concurrences = re.findall(r"^\./wakhtsime table < SOURCE \| awk .*$", text, re.MULTILINE)
        cases = {
            "group 7\nk 3\nlambda 1\nbase 0 1 3\n": ("packing\n", {"concurrence 1 rows 6"}),
            "group 13\nk 3\nlambda 1\nbase 0 1 4\n": ("packing\n", {"concurrence 0 rows 6", "concurrence 1 rows 6"}),
            "group 7\nk 3\nlambda 1\nbase 0 1 2\n": ("no packing\n", {"concurrence 2 rows 2", "concurrence 1 rows 2", "concurrence 0 rows 2"}),
            "group 8\nfixed 1\nk 3\nlambda 1\nbase 0 1 3\nbase 0 4 inf1\n": ("no packing\n", {"concurrence 1 rows 6", "concurrence 2 rows 2"}),
        }
        for source, (verdict, numbers) in cases.items():
            (self.folder / "source").write_text(source)
            self.assertEqual(self.run_line(packing.replace("SOURCE", "source")), verdict, source)
            self.assertEqual(set(self.run_line(concurrences.replace("SOURCE", "source")).splitlines()), numbers, source)

    def test_what_the_documents_say_of_texts(self):
        cases = [
            ("show", "group 2 2 2 2 2 2 2 2\n", "source refused line 1 GroupRange"),
            ("show", "group 2 2 2 2 2 2 2 x\n", "source refused line 1 BadNumber"),
            ("show", "version 1\ngroup 7\n", "source refused line 1 BadNumber"),
            ("show", "\ufeffgroup 7\n", "source refused line 1 BadWord"),
            ("resume", "\ufeffdossier 2\n", "dossier refused line 1 BadHead"),
            ("verify", "version 2\ngroup 7\nshift none\nmult 2\nk 3\nlambda 1\nbase 0 1 3\nforbid 0 1 3\n", "accepted 7"),
            ("solve", "group 128\nshift none\nk 3\nlambda 1\n", "limit columns 341376 above 65536"),
            ("matrix", "group 128\nk 4\nlambda 1\n", "limit subsets 4 of 128 above 2000000"),
        ]
        for word, source, wanted in cases:
            done = subprocess.run([PROGRAM, word], input=source.encode(), capture_output=True)
            self.assertEqual(done.stdout.decode().splitlines()[0], wanted)
        source = b"group 7\nk 3\nlambda 2\nbase 0 1 3\n"
        self.assertEqual(subprocess.run([PROGRAM, "table"], input=source, capture_output=True).returncode, 0)

    def test_the_large_matrix(self):
        text = (ROOT / "docs/FORMATS.md").read_text()
        lines = re.search(r"100 GB: `(.*)` has ([\d,]+) orbits with ([\d,]+) entries", text)
        source = lines.group(1).replace("`, `", "\n") + "\n"
        orbits, entries = (int(number.replace(",", "")) for number in lines.groups()[1:])
        self.assertGreater(2 * orbits * entries, 100 * 10**9)
        done = subprocess.Popen([PROGRAM, "matrix"], stdin=subprocess.PIPE, stdout=subprocess.PIPE)
        done.stdin.write(source.encode())
        done.stdin.close()
        self.assertEqual(done.stdout.readline().decode(), f"rows {entries} orbits {orbits} kept 0\n")
        done.stdout.close()
        done.wait()


if __name__ == "__main__":
    unittest.main()
