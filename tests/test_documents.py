"""Runs the documents: each line after '$ ' in a console block is given to a shell, and what it writes has to stand below it.

The blocks of a document are run one after another in one folder, where 'wakhtsime' stands for the program and its tools.
"""
import os
import shlex
import shutil
import subprocess
import sys
import tempfile
import unittest
from dataclasses import dataclass
from pathlib import Path

ROOT = Path(__file__).resolve().parent.parent
sys.path.insert(0, str(ROOT / "tools"))
if __name__ == "__main__" and len(sys.argv) > 1:
    os.environ["WAKHTSIME_PROGRAM"] = os.path.abspath(sys.argv.pop(1))

import dossiers  # noqa: E402

DOCUMENTS = ["TUTORIAL.md", "TABLES.md"]
LAUNCHER = """#!/bin/sh
case $1 in
    import | explain | convert | picture | search) tool=$1; shift; exec {python} {tools}/"$tool".py "$@" ;;
    *) exec {program} "$@" ;;
esac
"""


@dataclass
class Step:
    """A command of a document, the number of its line, and what it is said to write."""
    line: int
    command: str
    wanted: str


def steps_of(text):
    """The commands of all console blocks. A line after '> ' goes on with the command above it."""
    steps, inside = [], False
    for number, line in enumerate(text.split("\n"), 1):
        if line.startswith("```"):
            inside = line == "```console"
        elif inside and line.startswith("$ "):
            steps.append(Step(number, line[2:] + "\n", ""))
        elif inside and line.startswith("> ") and not steps[-1].wanted:
            steps[-1].command += line[2:] + "\n"
        elif inside:
            steps[-1].wanted += line + "\n"
    return steps


def make_launcher(folder):
    launcher = folder / "wakhtsime"
    launcher.write_text(LAUNCHER.format(python=shlex.quote(sys.executable), tools=shlex.quote(str(ROOT / "tools")),
                                        program=shlex.quote(os.path.abspath(dossiers.program_path()))))
    launcher.chmod(0o755)


def run(command, folder, status):
    """The status and the text of a command; it is given the status of the command before it as '$?'."""
    environment = dict(os.environ, WAKHTSIME_PROGRAM=os.path.abspath(dossiers.program_path()), LC_ALL="C")
    call = subprocess.run(["sh", "-c", f"(exit {status})\n{command}"], cwd=folder, env=environment, stdin=subprocess.DEVNULL,
                          stdout=subprocess.PIPE, stderr=subprocess.STDOUT, text=True, check=False)
    return call.returncode, call.stdout


class Documents(unittest.TestCase):
    def run_document(self, name):
        folder = Path(tempfile.mkdtemp())
        self.addCleanup(shutil.rmtree, folder)
        make_launcher(folder)
        steps = steps_of((ROOT / "docs" / name).read_text())
        self.assertGreater(len(steps), 10)
        status = 0
        for step in steps:
            with self.subTest(document=name, line=step.line):
                status, written = run(step.command, folder, status)
                self.assertEqual(written, step.wanted)

    def test_tutorial(self):
        self.run_document("TUTORIAL.md")

    def test_tables(self):
        self.run_document("TABLES.md")


class Reading(unittest.TestCase):
    def test_steps(self):
        text = "a\n```console\n$ cat > f << END\n> one\n> END\n$ cat f\none\n```\n```r\n$ no\n```\n"
        self.assertEqual(steps_of(text), [Step(3, "cat > f << END\none\nEND\n", ""), Step(6, "cat f\n", "one\n")])

    def test_a_console_block_in_each_document(self):
        for name in DOCUMENTS:
            text = (ROOT / "docs" / name).read_text()
            self.assertGreater(text.count("\n```console\n"), 3)


if __name__ == "__main__":
    unittest.main()
