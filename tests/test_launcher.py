"""Tests of the launcher, over a small tree of two crates, with a script in place of the kit."""
import os
import pty
import shutil
import signal
import subprocess
import tempfile
import time
import unittest
from pathlib import Path

ROOT = Path(__file__).resolve().parent.parent
PROGRAM = os.environ["WAKHTSIME_PROGRAM"]
FANO = "group 7\nk 3\nlambda 1\nbase 0 1 3\n"

BUILD = """#!/bin/sh
echo "told by the build of $1"
[ "$1" = df_low ] || [ "$1" = df_main ] || exit 1
[ "$PWD" = "$(cd .. && pwd)/$1" ] || exit 1
[ ! -e ../../fails ] || exit 1
if [ "$1" = df_main ]; then mkdir out && cp "$PROGRAM_TO_BUILD" out/df_main; fi
"""


class Tree:
    """A copy of the launcher with two crates, in a folder of its own whose name has a blank."""

    def __init__(self, program=PROGRAM):
        self.folder = Path(tempfile.mkdtemp())
        self.root = self.folder / "the tree"
        self.temporary = self.folder / "temporary"
        self.temporary.mkdir()
        for crate in ("df_low", "df_main"):
            for part in ("src/deeper", "proofs", "out"):
                (self.root / "crates" / crate / part).mkdir(parents=True)
            (self.root / "crates" / crate / "src/lib.rt").write_text(f"// {crate}\n")
            (self.root / "crates" / crate / "src/deeper/more.rt").write_text(f"// {crate}\n")
            (self.root / "crates" / crate / "proofs/Lib.antt").write_text("")
            (self.root / "crates" / crate / "out/left").write_text("of an earlier build")
        (self.root / "crates.txt").write_text("# a comment\ndf_main: df_low arrayvec\ndf_low:\n")
        (self.root / "HANDLES").write_text("Handles allowed: none.\n")
        shutil.copytree(ROOT / "docs", self.root / "docs")
        shutil.copy(ROOT / "wakhtsime", self.root)
        (self.root / "tools").mkdir()
        self.build = self.folder / "build"
        self.build.write_text(BUILD)
        self.build.chmod(0o755)
        self.environment = dict(
            os.environ, WAKHTSIME_BUILD=str(self.build), PROGRAM_TO_BUILD=str(program), TMPDIR=str(self.temporary)
        )
        self.environment.pop("WAKHTSIME_PROGRAM")

    def run(self, *words, text="", launcher=None, **more):
        """Runs the launcher: its status, what it writes, and what it says."""
        command = launcher or [self.root / "wakhtsime"]
        environment = {**self.environment, **more.pop("environment", {})}
        done = subprocess.run([*command, *words], input=text, capture_output=True, text=True, env=environment, **more)
        return done.returncode, done.stdout, done.stderr

    def remove(self):
        shutil.rmtree(self.folder)


class LauncherTest(unittest.TestCase):
    def make_tree(self, *words):
        tree = Tree(*words)
        self.addCleanup(tree.remove)
        return tree

    def make_program(self, tree, text):
        program = tree.folder / "program"
        program.write_text("#!/bin/sh\n" + text)
        program.chmod(0o755)
        tree.environment["PROGRAM_TO_BUILD"] = str(program)

    def assert_builds(self, tree):
        status, written, said = tree.run("verify", text=FANO)
        self.assertEqual((status, written[:11]), (0, "accepted 7\n"), said)
        self.assertIn("crate 1 of 2: df_low\nwakhtsime: crate 2 of 2: df_main\n", said)

    def assert_is_built(self, tree, **more):
        status, written, said = tree.run("verify", text=FANO, **more)
        self.assertEqual((status, written[:11], said), (0, "accepted 7\n", ""))

    def test_help_needs_no_program(self):
        tree = self.make_tree()
        for words in ([], ["help"], ["--help"], ["-h"]):
            status, written, said = tree.run(*words)
            self.assertEqual((status, said), (0, ""))
            self.assertTrue(written.startswith("wakhtsime: a workbench"))
            self.assertIn(" 9 ", written)
        self.assertFalse((tree.root / "bin").exists())

    def test_the_program_alone_is_kept(self):
        tree = self.make_tree()
        self.assert_builds(tree)
        self.assertEqual(sorted(os.listdir(tree.root / "bin")), ["df_main", "df_main.sums"])
        self.assertEqual(os.listdir(tree.temporary), [])
        self.assertFalse((tree.root / "crates/df_main/out/df_main").exists())
        self.assert_is_built(tree)

    def test_what_is_built_of_is_watched(self):
        tree = self.make_tree()
        self.assert_builds(tree)
        crates = tree.root / "crates"
        (crates / "df_low/proofs/Lib.antt").write_text("changed")
        (crates / "df_low/out/left").write_text("changed")
        os.utime(crates / "df_low/src/lib.rt")
        self.assert_is_built(tree)
        for file in ("src/lib.rt", "src/deeper/more.rt", "src/new.rt"):
            (crates / "df_low" / file).write_text("changed")
            os.utime(crates / "df_low" / file, (0, 0))
            self.assert_builds(tree)
            self.assert_is_built(tree)
        (crates / "df_low/src/new.rt").unlink()
        self.assert_builds(tree)
        for file in ("crates.txt", "HANDLES"):
            with open(tree.root / file, "a") as text:
                text.write("# changed\n")
            self.assert_builds(tree)
        with open(tree.root / "bin/df_main", "ab") as program:
            program.write(b"damaged")
        self.assert_builds(tree)

    def test_every_source_of_the_repository_is_in_the_sums(self):
        tree = self.make_tree()
        shutil.rmtree(tree.root / "crates")
        for crate in (ROOT / "crates").iterdir():
            shutil.copytree(crate / "src", tree.root / "crates" / crate.name / "src")
        shutil.copy(ROOT / "crates.txt", tree.root)
        tree.build.write_text(BUILD.replace('[ "$1" = df_low ] || [ "$1" = df_main ]', "true"))
        status, _, said = tree.run("verify", text=FANO)
        self.assertEqual(status, 0, said)
        lines = (tree.root / "bin/df_main.sums").read_text().splitlines()
        summed = {line.split(" ", 2)[2] for line in lines}
        files = {str(path.relative_to(tree.root)) for path in (tree.root / "crates").rglob("*") if path.is_file()}
        self.assertEqual(summed, files | {"crates.txt", "HANDLES", "bin/df_main"})

    def test_crates_come_after_those_that_they_use(self):
        tree = self.make_tree()
        shutil.rmtree(tree.root / "crates")
        for crate in (ROOT / "crates").iterdir():
            (tree.root / "crates" / crate.name / "src").mkdir(parents=True)
        shutil.copy(ROOT / "crates.txt", tree.root)
        tree.build.write_text(BUILD.replace('[ "$1" = df_low ] || [ "$1" = df_main ]', "true"))
        _, _, said = tree.run("verify", text=FANO)
        order = [line.split(": ")[2] for line in said.splitlines() if " crate " in line]
        uses = dict(line.split(":") for line in (ROOT / "crates.txt").read_text().splitlines() if line[0] != "#")
        self.assertEqual(sorted(order), sorted(uses))
        for crate in order:
            for used in uses[crate].split():
                self.assertTrue(used not in uses or order.index(used) < order.index(crate), (used, crate))

    def test_it_runs_from_everywhere(self):
        tree = self.make_tree()
        self.assert_builds(tree)
        links = tree.folder / "links"
        links.mkdir()
        (links / "absolute").symlink_to(tree.root / "wakhtsime")
        (links / "relative").symlink_to("../the tree/wakhtsime")
        (links / "second").symlink_to("relative")
        (tree.folder / "folder").symlink_to("the tree")
        (tree.folder / "short").symlink_to("folder/wakhtsime")
        (tree.folder / "a-link").symlink_to("the tree")
        (tree.folder / "dashed").symlink_to("a-link/wakhtsime")
        (tree.folder / "decoy/the tree").mkdir(parents=True)
        for launcher in (links / "absolute", links / "relative", links / "second", tree.folder / "folder/wakhtsime"):
            self.assert_is_built(tree, launcher=[launcher])
            self.assert_is_built(tree, launcher=[os.path.relpath(launcher, "/")], cwd="/")
        self.assert_is_built(tree, launcher=["sh", "wakhtsime"], cwd=tree.root)
        self.assert_is_built(tree, launcher=["sh", "second"], cwd=links)
        self.assert_is_built(tree, launcher=["sh", "short"], cwd=tree.folder)
        self.assert_is_built(tree, launcher=["sh", "dashed"], cwd=tree.folder)
        with_path = {"PATH": f"{links}:{os.environ['PATH']}"}
        self.assert_is_built(tree, launcher=["/usr/bin/env", "second"], cwd="/", environment=with_path)
        with_paths = {"CDPATH": str(tree.folder / "decoy")}
        self.assert_is_built(tree, launcher=["the tree/wakhtsime"], cwd=tree.folder, environment=with_paths)

    def test_a_copy_is_built(self):
        tree = self.make_tree()
        self.assert_builds(tree)
        for options in ("-r", "-rp"):
            copy = tree.folder / f"copy{options}"
            subprocess.run(["cp", options, tree.root, copy], check=True)
            self.assert_is_built(tree, launcher=[copy / "wakhtsime"])
            (copy / "crates/df_low/src/lib.rt").write_text("changed")
            _, _, said = tree.run("verify", text=FANO, launcher=[copy / "wakhtsime"])
            self.assertIn("crate 2 of 2", said)
        (tree.root / "crates/df_low/src/lib.rt").write_text("changed")
        subprocess.run(["cp", "-r", tree.root, tree.folder / "stale"], check=True)
        _, _, said = tree.run("verify", text=FANO, launcher=[tree.folder / "stale/wakhtsime"])
        self.assertIn("crate 2 of 2", said)

    def test_a_build_that_fails(self):
        tree = self.make_tree()
        tree.build.write_text(BUILD.replace('[ "$1" = df_low ] || ', ""))
        status, written, said = tree.run("verify", text=FANO)
        self.assertEqual((status, written), (9, ""))
        self.assertIn("told by the build of df_low\nwakhtsime: the crate df_low couldn't be built\n", said)
        self.assertEqual(os.listdir(tree.temporary), [])
        self.assertFalse((tree.root / "bin").exists())

    def test_no_kit(self):
        tree = self.make_tree()
        tools = tree.folder / "tools"
        tools.mkdir()
        for name in ("sh", "cksum", "cmp", "cat"):
            (tools / name).symlink_to(shutil.which(name))
        status, _, said = tree.run("verify", environment={"WAKHTSIME_BUILD": "", "PATH": str(tools)})
        self.assertEqual(status, 9)
        self.assertIn("rt of the Rattle kit isn't on the path", said)

    def test_a_stopped_build_leaves_nothing(self):
        tree = self.make_tree()
        tree.build.write_text("#!/bin/sh\necho > ../../../started\nsleep 30\n")
        command = [tree.root / "wakhtsime", "verify"]
        launcher = subprocess.Popen(
            command, env=tree.environment, stdin=subprocess.DEVNULL, stderr=subprocess.DEVNULL, start_new_session=True
        )
        wait_for(tree.temporary / "started")
        os.killpg(launcher.pid, signal.SIGINT)
        self.assertEqual(launcher.wait(timeout=20), -signal.SIGINT)
        self.assertEqual(os.listdir(tree.temporary), ["started"])

    def test_statuses_are_handed_on(self):
        tree = self.make_tree()
        self.make_program(tree, "exit $1\n")
        tree.run("0")
        for status in range(10):
            answered, _, said = tree.run(str(status))
            self.assertEqual((answered, said != ""), (status, status in (2, 3)))

    def test_words_and_bytes_are_handed_on(self):
        tree = self.make_tree()
        self.make_program(tree, 'for word in "$@"; do echo "<$word>"; done; cat\n')
        tree.run("x")
        status, written, _ = tree.run("solve", "a  b", "", "*", text="two\nlines")
        self.assertEqual((status, written), (0, "<solve>\n<a  b>\n<>\n<*>\ntwo\nlines"))

    def test_faults_point_to_documents(self):
        tree = self.make_tree()
        self.assert_builds(tree)
        status, written, said = tree.run("verfy")
        self.assertEqual((status, written), (2, "usage word 1\n"))
        self.assertIn("./wakhtsime help", said)
        cases = {
            "show": [("LANGUAGE.md", "## What is wrong with a source")],
            "solve": [("LANGUAGE.md", "## What is wrong with a source"), ("FORMATS.md", "## Words of the command line")],
            "check": [("FORMATS.md", "## Dossiers"), ("FORMATS.md", "## Words of the command line")],
        }
        for word, places in cases.items():
            status, _, said = tree.run(word, text="group 1\n")
            self.assertEqual(status, 3)
            for document, heading in places:
                lines = (ROOT / "docs" / document).read_text().splitlines()
                number = next(place for place, line in enumerate(lines, 1) if line.startswith(heading))
                self.assertIn(f"docs/{document} line {number} ", said)

    def test_a_terminal_is_told_what_is_read(self):
        tree = self.make_tree()
        self.assert_builds(tree)
        for word, kind in (("verify", "source"), ("check", "dossier")):
            ours, theirs = pty.openpty()
            launcher = subprocess.Popen(
                [tree.root / "wakhtsime", word], stdin=theirs, stdout=subprocess.PIPE, stderr=subprocess.PIPE, env=tree.environment
            )
            os.close(theirs)
            os.write(ours, FANO.encode() + b"\x04")
            written, said = launcher.communicate(timeout=20)
            os.close(ours)
            self.assertIn(f"{word} reads a {kind}", said.decode())
            self.assertIn({"verify": b"accepted 7", "check": b"dossier refused line 1"}[word], written)

    def test_a_signal_ends_the_program_too(self):
        tree = self.make_tree()
        self.make_program(tree, f"[ \"$1\" = now ] || {{ echo $$ > '{tree.folder}/running'; exec sleep 60; }}\n")
        tree.run("now")
        for sent in (signal.SIGTERM, signal.SIGINT, signal.SIGHUP):
            launcher = subprocess.Popen([tree.root / "wakhtsime", "long"], env=tree.environment, stdin=subprocess.DEVNULL)
            wait_for(tree.folder / "running")
            running = int((tree.folder / "running").read_text())
            os.kill(launcher.pid, sent)
            self.assertEqual(launcher.wait(timeout=20), -sent)
            wait_until(lambda: not is_running(running))
            (tree.folder / "running").unlink()

    def test_tools(self):
        tree = self.make_tree()
        (tree.root / "tools/convert.py").write_text(
            "import os, sys\nprint(sys.argv[1:], os.environ['WAKHTSIME_PROGRAM'])\nsys.exit(5)\n"
        )
        status, written, said = tree.run("convert", "--help")
        self.assertEqual((status, said), (5, ""))
        shutil.copy(tree.root / "tools/convert.py", tree.root / "tools/import.py")
        status, written, said = tree.run("import", "--group", "7")
        self.assertEqual((status, said), (5, ""))
        status, written, said = tree.run("convert", "xml", "two words")
        self.assertEqual((status, written), (5, f"['xml', 'two words'] {tree.root.resolve()}/bin/df_main\n"))
        self.assertIn("crate 2 of 2", said)
        status, written, said = tree.run("picture")
        self.assertEqual((status, written), (2, ""))
        self.assertIn("the tool picture isn't there", said)


def wait_until(holds):
    for _ in range(2000):
        if holds():
            return
        time.sleep(0.01)
    raise AssertionError("it took too long")


def wait_for(path):
    wait_until(lambda: path.exists() and path.read_text())


def is_running(process):
    try:
        os.kill(process, 0)
    except ProcessLookupError:
        return False
    return True


if __name__ == "__main__":
    unittest.main()
