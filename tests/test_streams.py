"""The program's standard streams in bad hands: each end has the status that docs/FORMATS.md names, and none is a signal."""
import fcntl, os, socket, subprocess, tempfile, unittest

from program import PROGRAM, SECONDS, ask, need_program, source

from plain import answer
from plain_source import Steps

PLANE = source("group 7 / k 3 / lambda 1")
FAMILY = source("group 7 / k 3 / lambda 1 / base 0 1 3")
FIXED = source("group 8 / fixed 1 / k 3 / lambda 1")
RESIDUE = source("group 7 / mult 6 / k 3 / lambda 3")
READ_FAULT, WRITE_FAULT, TOO_LONG = 4, 5, 8
SMALL_PIPE = 4096


def setUpModule():
    need_program()


def dossiers():
    """A dossier that ended spent, and a log that is whole."""
    return ask("solve --log --budget 2", PLANE)[1], ask("solve --log", PLANE)[1]


def questions():
    """Words and an input for each command, accepted and refused."""
    spent, log = dossiers()
    return [("show", PLANE), ("show", b""), ("table", FAMILY), ("verify", FAMILY), ("verify", PLANE), ("orbits", PLANE), ("matrix", PLANE),
            ("matrix", source("group 64 / k 6 / lambda 1")), ("solve", PLANE), ("solve --log --blocks", PLANE), ("solve --budget 1", PLANE),
            ("solve --json", PLANE), ("solve --json --blocks --budget 1", PLANE), ("resume", spent), ("resume --log", spent), ("resume", log),
            ("check", log), ("check", spent), ("check", log[:-20]), ("workload 1", b""), ("solve --budget", PLANE)]


def piped(words, data, **streams):
    """The status, and the text where it isn't sent elsewhere, of the program with some standard streams of its own."""
    streams.setdefault("stdin", subprocess.PIPE)
    streams.setdefault("stdout", subprocess.PIPE)
    child = subprocess.Popen([PROGRAM, *words.split()], **streams)
    try:
        text, _ = child.communicate(data if streams["stdin"] == subprocess.PIPE else None, timeout=SECONDS)
    finally:
        child.kill()
    return child.returncode, text


class Output(unittest.TestCase):
    def test_a_full_device(self):
        for words, data in questions():
            with open("/dev/full", "wb") as full:
                self.assertEqual(piped(words, data, stdout=full)[0], WRITE_FAULT, words)

    def test_a_closed_output(self):
        for words, data in questions():
            status, _ = piped(words, data, stdout=None, preexec_fn=lambda: os.close(1))
            self.assertEqual(status, WRITE_FAULT, words)

    def test_an_output_that_may_only_be_read(self):
        for words, data in questions():
            with open("/dev/null", "rb") as reading:
                self.assertEqual(piped(words, data, stdout=reading)[0], WRITE_FAULT, words)

    def test_a_pipe_that_nobody_reads(self):
        """A write to a closed pipe is a fault of the output, and no signal ends the program."""
        for words, data in questions():
            reading, writing = os.pipe()
            os.close(reading)
            try:
                self.assertEqual(piped(words, data, stdout=writing)[0], WRITE_FAULT, words)
            finally:
                os.close(writing)

    def test_a_pipe_that_closes_after_some_bytes(self):
        data = source("group 31 / k 4 / lambda 1")
        status, whole = ask("orbits", data)
        self.assertEqual(status, 0)
        self.assertGreater(len(whole), 4 * SMALL_PIPE)
        for count in (0, 1, 2, 100, 1023, 1024, 1025, SMALL_PIPE, 2 * SMALL_PIPE):
            reading, writing = os.pipe()
            fcntl.fcntl(writing, fcntl.F_SETPIPE_SZ, SMALL_PIPE)
            child = subprocess.Popen([PROGRAM, "orbits"], stdin=subprocess.PIPE, stdout=writing)
            os.close(writing)
            child.stdin.write(data)
            child.stdin.close()
            text = b""
            while len(text) < count:
                text += os.read(reading, count - len(text))
            os.close(reading)
            self.assertEqual(child.wait(SECONDS), WRITE_FAULT, count)
            self.assertEqual(text, whole[:count])

    def test_a_file_of_bounded_size_has_a_proper_prefix(self):
        """Where a file may not grow, what stands in it is a proper prefix of the text."""
        import resource, signal

        def bounded():
            signal.signal(signal.SIGXFSZ, signal.SIG_IGN)
            resource.setrlimit(resource.RLIMIT_FSIZE, (most, most))

        for words, data in questions():
            _, whole = ask(words, data)
            for most in sorted({0, 1, 10, len(whole) // 2, len(whole) - 1}):
                with tempfile.TemporaryFile() as file:
                    status, _ = piped(words, data, stdout=file, preexec_fn=bounded)
                    file.seek(0)
                    self.assertEqual((status, file.read()), (WRITE_FAULT, whole[:most]), (words, most))


class Input(unittest.TestCase):
    def reads_fail(self, status_of):
        """A read that fails is status 4 without a text, but where nothing is read."""
        for words, data in questions():
            status, text = status_of(words)
            if words.startswith("workload") or words == "solve --budget":
                self.assertEqual((status, text), ask(words, data), words)
            else:
                self.assertEqual((status, text), (READ_FAULT, b""), words)

    def test_a_folder(self):
        folder = os.open("/", os.O_RDONLY)
        self.addCleanup(os.close, folder)
        self.reads_fail(lambda words: piped(words, b"", stdin=folder))

    def test_a_closed_input(self):
        self.reads_fail(lambda words: piped(words, b"", stdin=None, preexec_fn=lambda: os.close(0)))

    def test_an_input_that_may_only_be_written(self):
        with open("/dev/null", "wb") as writing:
            self.reads_fail(lambda words: piped(words, b"", stdin=writing))

    def test_a_read_that_fails_after_some_bytes(self):
        """Each byte that came before the fault may be anything: a whole input, a refused one, or too little of it."""
        for words, data in questions():
            if words.startswith("workload") or words == "solve --budget":
                continue
            for count in sorted({1, len(data) // 2, max(len(data) - 1, 1), max(len(data), 1)}):
                ours, theirs = socket.socketpair()
                ours.sendall((data or b"\n")[:count])
                # what the peer closes without having read it makes our end's stream fail after its last byte
                theirs.sendall(b"unread")
                with theirs:
                    child = subprocess.Popen([PROGRAM, *words.split()], stdin=theirs, stdout=subprocess.PIPE)
                ours.close()
                text, _ = child.communicate(timeout=SECONDS)
                self.assertEqual((child.returncode, text), (READ_FAULT, b""), (words, count))

    def test_all_streams_closed(self):
        for words, _ in questions():
            child = subprocess.Popen([PROGRAM, *words.split()], preexec_fn=lambda: os.closerange(0, 3))
            reads = not words.startswith("workload") and words != "solve --budget"
            self.assertEqual(child.wait(SECONDS), READ_FAULT if reads else WRITE_FAULT, words)

    def test_single_bytes(self):
        for words, data in questions():
            reading, writing = os.pipe()
            child = subprocess.Popen([PROGRAM, *words.split()], stdin=reading, stdout=subprocess.PIPE)
            os.close(reading)
            try:
                for byte in data:
                    os.write(writing, bytes([byte]))
            except BrokenPipeError:
                self.assertIn(words, ("workload 1", "solve --budget"))
            os.close(writing)
            text, _ = child.communicate(timeout=SECONDS)
            self.assertEqual((child.returncode, text), ask(words, data), words)

    def test_one_byte_too_many(self):
        for words in ("show", "table", "verify", "orbits", "matrix", "solve", "solve --json"):
            data = PLANE + b"#" * ((1 << 20) - len(PLANE))
            self.assertEqual(ask(words, data), ask(words, PLANE), words)
            self.assertEqual(ask(words, data + b"#"), (TOO_LONG, b""), words)


class Prefixes(unittest.TestCase):
    """Each proper prefix of a log is refused, but that which lacks the last line feed alone."""

    def judge(self, log, designs):
        self.assertEqual(ask("check", log), (0, b"complete %d\n" % designs))
        self.assertEqual(ask("check", log[:-1]), (0, b"complete %d\n" % designs))
        for count in range(len(log) - 1):
            status, text = ask("check", log[:count])
            whole_number = log[count:].strip(b"0123456789") == b"\n"
            self.assertEqual((status, text), answer(["check"], log[:count], Steps()), log[:count])
            # a shorter number of nodes is a number too, and isn't judged
            self.assertIn(status, (0,) if whole_number and log[:count][-1:].isdigit() else (1, 3), log[:count])

    def test_two_designs(self):
        self.judge(ask("solve --log", PLANE)[1], 2)

    def test_a_fixed_point(self):
        self.judge(ask("solve --log", FIXED)[1], 2)

    def test_residues(self):
        log = ask("solve --log", RESIDUE)[1]
        self.assertIn(b"\nresidue 1 2\n", log)
        self.judge(log, 1)
        cut = log.replace(b"\nresidue 1 2\n", b"\ncut 2 0 -1 2\n")
        self.judge(cut, 1)

    def test_a_chain_of_three(self):
        _, first = ask("solve --log --budget 2", PLANE)
        _, second = ask("resume --log --budget 1", first)
        _, third = ask("resume --log", second)
        self.judge(first + second + third, 2)

    def test_prefixes_of_other_inputs(self):
        """Each prefix of a source and of a spent dossier has the answer that bench/plain.py gives."""
        for words, data in (("show", FAMILY), ("solve --log", PLANE), ("resume --log", dossiers()[0])):
            for count in range(len(data) + 1):
                self.assertEqual(ask(words, data[:count]), answer(words.split(), data[:count], Steps()), (words, data[:count]))


if __name__ == "__main__":
    unittest.main()
