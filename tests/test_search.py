"""Tests of tools/search.py: slices, stops at any time, and what is joined."""
import os
import random
import shutil
import signal
import subprocess
import sys
import tempfile
import time
import unittest
from pathlib import Path

ROOT = Path(__file__).resolve().parent.parent
sys.path.insert(0, str(ROOT / "tools"))
if __name__ == "__main__" and len(sys.argv) > 1:
    os.environ["WAKHTSIME_PROGRAM"] = os.path.abspath(sys.argv.pop(1))

import dossiers  # noqa: E402
import search  # noqa: E402

TRIPLES_19 = (ROOT / "examples" / "solve" / "triples_19.df").read_text()
PLANES_3 = (ROOT / "examples" / "solve" / "planes_3.df").read_text()
KILLS = 10
# The first lines, then a pause, then the rest: so that a kill comes while a file is half written.
SLOW_PROGRAM = """#!/bin/sh
text=$(mktemp)
"$FAST_PROGRAM" "$@" > "$text"
status=$?
head -n 5 "$text"
sleep 0.05
tail -n +6 "$text"
rm "$text"
exit $status
"""


def sliced(source, budget, *options):
    """The texts of a search in slices, by calls of the program alone."""
    status, text = dossiers.run_program(["solve", "--budget", budget, *options], source)
    texts = [text]
    while status == 7:
        status, text = dossiers.run_program(["resume", "--budget", budget, *options], text)
        texts.append(text)
    return texts


def hear_all():
    """No signal is ignored, also where the tests run behind something that ignores it."""
    for number in (signal.SIGINT, signal.SIGTERM, signal.SIGHUP):
        signal.signal(number, signal.SIG_DFL)


class SearchTest(unittest.TestCase):
    def setUp(self):
        self.place = Path(tempfile.mkdtemp())
        self.addCleanup(shutil.rmtree, self.place)
        self.folder = self.place / "a search"
        self.environment = dict(os.environ)

    def command(self, *words):
        return [sys.executable, str(ROOT / "tools" / "search.py"), *map(str, words)]

    def called(self, *words, text=""):
        call = subprocess.run(self.command(*words), input=text, capture_output=True, text=True, env=self.environment, check=False)
        return call.returncode, call.stdout, call.stderr

    def slices(self):
        return [path.read_text() for path in sorted(self.folder.glob("slice_*.dossier"))]

    def remains(self):
        return [path.name for path in self.folder.glob(search.TEMPORARY + "*")]

    def wait_for_another_file(self, before):
        for _ in range(6000):
            if set(self.remains()) - set(before):
                return
            time.sleep(0.01)
        self.fail("no slice is begun")


class Stops(SearchTest):
    def test_ten_kills_at_random_moments(self):
        slow = self.place / "slow"
        slow.write_text(SLOW_PROGRAM)
        slow.chmod(0o755)
        self.environment.update(FAST_PROGRAM=dossiers.program_path(), WAKHTSIME_PROGRAM=str(slow))
        wanted = sliced(TRIPLES_19, "10", "--log")
        self.assertGreater(len(wanted), 10 * KILLS)  # so many pauses that the search is not at its end before the last kill
        half_written = 0
        for count in range(KILLS):
            source = TRIPLES_19 if not (self.folder / "settings").exists() else ""
            before = self.remains()
            with self.subTest(count=count), open(self.place / "told", "w") as told:
                process = subprocess.Popen(self.command(self.folder, *(["--budget", 10, "--log"] if source else [])),
                                           stdin=subprocess.PIPE, stdout=told, stderr=told, env=self.environment)
                process.stdin.write(source.encode())
                process.stdin.close()
                if count % 2:  # a slice is at work; at the other times the search may still be at its start
                    self.wait_for_another_file(before)
                time.sleep(random.uniform(0.0, 0.4))
                process.kill()
                self.assertEqual(process.wait(), -signal.SIGKILL)
            if self.folder.exists():
                half_written += len(self.remains())
                self.assertEqual(self.slices(), wanted[:len(self.slices())])
        self.assertGreater(half_written, 0)
        self.environment["WAKHTSIME_PROGRAM"] = dossiers.program_path()
        words = [self.folder] if (self.folder / "settings").exists() else [self.folder, "--budget", 10, "--log"]
        status, answer, _ = self.called(*words, text=TRIPLES_19)
        nodes = sum(int(text.split("\n")[-2].split()[5]) for text in wanted)
        self.assertEqual((status, answer), (0, f"finished designs 32 nodes {nodes} slices {len(wanted)}\ncomplete 32\n"))
        self.assertEqual("".join(self.slices()), "".join(wanted))
        self.assertEqual(self.remains(), [])

    def test_a_request_to_stop(self):
        wanted = sliced(TRIPLES_19, "20")
        self.assertGreater(len(wanted), 60)
        for request in (signal.SIGTERM, signal.SIGINT, signal.SIGHUP):
            folder = self.place / request.name
            process = subprocess.Popen(self.command(folder, "--budget", 20), stdin=subprocess.PIPE, stdout=subprocess.PIPE,
                                       stderr=subprocess.PIPE, env=self.environment, preexec_fn=hear_all)
            process.stdin.write(TRIPLES_19.encode())
            process.stdin.close()
            process.stdin = None
            while not search.slice_place(folder, 2).exists():
                time.sleep(0.01)
            process.send_signal(request)
            answer, told = process.communicate()
            self.assertEqual((process.returncode, answer), (7, b""))
            self.assertIn(b"stopped; 'search", told)
            self.folder = folder
            self.assertEqual(self.remains(), [])
            self.assertEqual(self.slices(), wanted[:len(self.slices())])
            self.assertEqual(self.called(folder)[:2], (0, f"finished designs 32 nodes 1365 slices {len(wanted)}\n"))
            self.assertEqual(self.slices(), wanted)

    def test_a_signal_that_is_ignored(self):
        process = subprocess.Popen(self.command(self.folder, "--budget", 20), stdin=subprocess.PIPE, stdout=subprocess.PIPE,
                                   stderr=subprocess.PIPE, env=self.environment,
                                   preexec_fn=lambda: signal.signal(signal.SIGHUP, signal.SIG_IGN))
        process.stdin.write(TRIPLES_19.encode())
        process.stdin.close()
        process.stdin = None
        while not search.slice_place(self.folder, 2).exists():
            time.sleep(0.01)
        process.send_signal(signal.SIGHUP)
        self.assertEqual(process.communicate()[0], b"finished designs 32 nodes 1365 slices 69\n")

    def test_remains_of_a_kill_are_removed(self):
        self.called(self.folder, "--budget", 2, "--slices", 1, text=PLANES_3)
        (self.folder / (search.TEMPORARY + "x")).write_text("dossier 2\n")
        self.assertEqual(self.called(self.folder)[0], 0)
        self.assertEqual(self.remains(), [])


class Slices(SearchTest):
    def test_slices_are_those_of_the_program(self):
        for options in ([], ["--log"]):
            for budget in ("1", "3", "1000"):
                self.folder = self.place / (budget + "".join(options))
                wanted = sliced(PLANES_3, budget, *options)
                status, answer, told = self.called(self.folder, "--budget", budget, *options, text=PLANES_3)
                self.assertEqual((status, answer), (0, f"finished designs 4 nodes 8 slices {len(wanted)}\n" +
                                                    ("complete 4\n" if options else "")))
                self.assertEqual(self.slices(), wanted)
                self.assertEqual(told.count("\n"), len(wanted))
                self.assertRegex(told, r"slice \d+: 4 designs, 8 nodes, \d+ nodes a second, 100\.0+% of the tree\n\Z")

    def test_so_many_slices_and_on(self):
        wanted = sliced(PLANES_3, "2")
        self.assertEqual(len(wanted), 4)
        status, answer, told = self.called(self.folder, "--budget", 2, "--slices", 3, text=PLANES_3)
        self.assertEqual((status, answer), (7, ""))
        self.assertIn("stopped", told)
        self.assertEqual(self.slices(), wanted[:3])
        self.assertEqual(self.called(self.folder, text=PLANES_3)[:2], (0, "finished designs 4 nodes 8 slices 4\n"))
        self.assertEqual(self.slices(), wanted)
        self.assertEqual(self.called(self.folder)[:2], (0, "finished designs 4 nodes 8 slices 4\n"))

    def test_the_share_of_the_tree(self):
        shares = [search.share_before(path) for path in ((), (0,), (1,), (1, 0), (2, 1), (2, 0), (3,), (3, 2))]
        self.assertEqual(shares, [0, 0, 0.5, 0, 0.5, 0.25, 0.875, 0.75])

    def test_shares_grow(self):
        ends = [text.split("\n")[-2] for text in sliced(TRIPLES_19, "20")]
        shares = [search.share_before(tuple(map(int, end.split()[7:]))) for end in ends[:-1]]
        self.assertEqual(shares, sorted(set(shares)))
        self.assertGreater(len(shares), 10)


class Refusals(SearchTest):
    def refused(self, words, text, status, told):
        found = self.called(*words, text=text)
        self.assertEqual((found[0], found[1]), (status, ""))
        self.assertIn(told, found[2])
        self.assertEqual(found[2].count("\n"), 1)

    def test_wrong_words(self):
        for words in ([], [self.folder, "b"], [self.folder, "--budget"], [self.folder, "--budget", "0"], [self.folder, "--log", "--log"],
                      [self.folder, "--slices", "x"], [self.folder, "--budget", "1000000000000001"], [self.folder, "--blocks"]):
            self.refused(words, "", 2, "search FOLDER")
        self.assertFalse(self.folder.exists())

    def test_no_source(self):
        self.refused([self.folder], "group 7\nk 3\n", 3, "source refused line 0 Missing lambda")
        self.assertEqual(self.called(self.folder, text=PLANES_3)[0], 0)

    def test_a_limit(self):
        self.refused([self.folder], "group 100\nk 8\nlambda 1\n", 3, "limit subsets 8 of 100 above 2000000")
        self.assertEqual(self.remains(), [])

    def test_another_search(self):
        self.called(self.folder, "--budget", 2, "--slices", 1, text=PLANES_3)
        self.refused([self.folder], TRIPLES_19, 3, "is of another source")
        self.refused([self.folder, "--budget", "3"], "", 3, "was begun with: --budget 2")
        self.refused([self.folder, "--log"], "", 3, "was begun with: --budget 2")

    def test_a_folder_of_other_files(self):
        self.folder.mkdir()
        (self.folder / "slice_00000001.dossier").write_text("mine")
        self.refused([self.folder], PLANES_3, 3, "has other files")
        self.assertEqual((self.folder / "slice_00000001.dossier").read_text(), "mine")

    def test_a_slice_that_is_missing_or_cut(self):
        self.called(self.folder, "--budget", 2, "--slices", 3, text=PLANES_3)
        third = search.slice_place(self.folder, 3)
        third.write_text(third.read_text()[:-3])
        self.refused([self.folder], "", 3, "has no end line")
        search.slice_place(self.folder, 2).unlink()
        self.refused([self.folder], "", 3, "slice_00000002.dossier is missing")

    def test_two_at_once(self):
        self.folder.mkdir()
        handle = search.lock(self.folder)
        self.refused([self.folder], PLANES_3, 3, "another search runs")
        handle.close()

    def test_a_forged_slice_is_found_by_check(self):
        self.called(self.folder, "--budget", 3, "--log", "--slices", 1, text=PLANES_3)
        first = search.slice_place(self.folder, 1)
        text = first.read_text()
        design = next(line for line in text.split("\n") if line.startswith("design"))
        first.write_text(text.replace(design + "\n", ""))
        status, answer, told = self.called(self.folder)
        self.assertEqual(status, 1)
        self.assertIn("\nrefused line ", answer)
        self.assertIn("aren't complete", told)

    def test_no_program(self):
        self.environment["WAKHTSIME_PROGRAM"] = "/nowhere/df_main"
        self.refused([self.folder], PLANES_3, 9, "can't be run")

    def test_help(self):
        status, answer, _ = self.called("--help")
        self.assertEqual(status, 0)
        self.assertIn("No proof is", answer)


if __name__ == "__main__":
    unittest.main()
