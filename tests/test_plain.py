"""What bench/plain.py says is what is known of designs, and what the program says is what bench/plain.py says."""
import itertools, random, unittest

from program import TOP, ask, need_program, source

import fuzz_forge, fuzz_limits
from fuzz_make import case
from plain import answer
from plain_source import Steps, TooSlow

PLANE = "group 7 / k 3 / lambda 1"
STEPS = 300000
CASES = 400


def plain(words, data, steps=1 << 40):
    return answer(words.split(), data, Steps(steps))


def last_line(words, text):
    return plain(words, source(text))[1].decode().splitlines()[-1]


class KnownAnswers(unittest.TestCase):
    """Answers that are known from elsewhere: counts of systems by hand or from the literature."""

    def test_labelled_planes_of_order_2_are_30(self):
        self.assertTrue(last_line("solve", PLANE + " / shift none").startswith("end finished designs 30 "))

    def test_cyclic_planes_of_order_3_are_4(self):
        self.assertEqual(last_line("solve", "group 13 / k 4 / lambda 1"), "end finished designs 4 nodes 8")

    def test_no_cyclic_triple_system_on_9_points(self):
        self.assertTrue(last_line("solve", "group 9 / k 3 / lambda 1").startswith("end finished designs 0 "))

    def test_affine_planes_of_order_3_with_translations_are_9(self):
        self.assertTrue(last_line("solve", "group 3 3 / k 3 / lambda 1").startswith("end finished designs 9 "))

    def test_a_family_is_developed(self):
        status, text = plain("verify", source(PLANE + " / base 0 1 3"))
        self.assertEqual((status, text.splitlines()[:3]), (0, [b"accepted 7", b"block 0 1 3", b"block 1 2 4"]))
        self.assertEqual(plain("verify", source(PLANE + " / base 0 1 2")), (1, b"refused diff 1 found 2 stated 1\n"))

    def test_a_mixed_family_needs_its_last_block(self):
        blocks = "0,0 1,0 2,0 / 0,0 0,1 1,3 / 0,0 0,2 1,1 / 1,0 1,1 2,3 / 1,0 1,2 2,1 / 2,0 2,1 0,3 / 2,0 2,2 0,1".split(" / ")
        lines = ["group 3 5", "subgroup H 0,1", "shift H", "k 3", "lambda 1"] + ["base " + b for b in blocks]
        mixed = lambda lines: answer(["mixed"], source(" / ".join(lines)), Steps(), ("mixed",))
        self.assertEqual(mixed(lines)[1].split(b"\n")[0], b"accepted 35")
        self.assertEqual(mixed(lines[:-1]), (1, b"refused pair 0,0 2,1 found 0 stated 1\n"))

    def test_words(self):
        for words, place in (("", 1), ("solve --budget", 3), ("solve --budget 0", 3), ("solve --log --json", 3), ("show --log", 2), ("workload", 2)):
            self.assertEqual(plain(words, b""), (2, f"usage word {place}\n".encode()), words)

    def test_examples_of_logs_have_their_answers(self):
        """Each dossier of the examples says in its first lines what `check` answers."""
        found = 0
        for path in sorted((TOP / "examples/check").glob("*.dossier")):
            data = path.read_bytes()
            for line in data.decode().splitlines():
                if line.startswith("# Answer: "):
                    found += 1
                    self.assertEqual(plain("check", data)[1].decode().strip(), line.removeprefix("# Answer: "), path.name)
        self.assertGreater(found, 30)


class Program(unittest.TestCase):
    """The program says what bench/plain.py says."""

    @classmethod
    def setUpClass(cls):
        need_program()

    def agree(self, name, words, data, steps=STEPS):
        try:
            wanted = answer(words, data, Steps(steps))
        except TooSlow:
            return 0
        self.assertEqual(ask(" ".join(words), data), wanted, f"{name}: {words} {data[:1000]!r}")
        return 1

    def test_made_cases(self):
        compared = 0
        for place in range(CASES):
            try:
                words, data = case(random.Random(f"tests {place}"))
            except TooSlow:
                continue
            if all(w and " " not in w for w in words):
                compared += self.agree(f"case {place}", words, data)
        self.assertGreater(compared, CASES * 3 // 4)

    def test_some_forgeries(self):
        for name, data in itertools.islice(fuzz_forge.forgeries(), 0, None, 191):
            self.assertEqual(self.agree(name, ["check"], data), 1)

    def test_numbers_at_limits(self):
        for make in (fuzz_limits.factor_cases, fuzz_limits.name_cases, fuzz_limits.word_cases):
            for place, (words, data) in enumerate(make()):
                if words[0] != "workload":
                    self.agree(f"{make.__name__} {place}", words, data)

    def test_a_forged_count_of_designs_is_not_believed(self):
        """D of an end line is read and not judged; the answer has the number of the design lines."""
        _, log = ask("solve --log", source(PLANE))
        forged = log.replace(b"designs 2 nodes 4", b"designs 9 nodes 9")
        self.assertNotEqual(forged, log)
        self.assertEqual(ask("check", forged), (0, b"complete 2\n"))


if __name__ == "__main__":
    unittest.main()
