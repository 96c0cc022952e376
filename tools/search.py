#!/usr/bin/env python3
"""A long search in slices, which can be stopped at any time and goes on from its last whole slice.

search FOLDER [--budget N] [--log] [--slices N] < SOURCE    begins a search in a folder that isn't there yet, or is empty
search FOLDER [--slices N]                                  goes on with it (a source on standard input has to be the same)

  --budget N   at most N nodes a slice (10,000,000 where it isn't stated); it belongs to the folder and can't be changed
  --log        each slice has its log, and at the end 'check' judges them all
  --slices N   stops after N slices

The folder has source.df, settings, and one dossier for each slice: slice_00000001.dossier and so on, whose names stand in the order
of the search. Each file is written under another name, and renamed once it is whole and on the disk. So the search may be stopped in
any way, also by a power cut: what is lost is the slice that was being written. 'cat FOLDER/slice_*.dossier' joins them.

While it runs, one line on standard error tells the designs, the nodes, the nodes a second, and how far the path is: the share of the
tree that lies before it, where each decision halves what is left. That is a measure of place, not of time.

At the end 'finished designs D nodes M slices S' is written, and with --log the answer of 'check'. The status is 0 then, or that of
'check'; 7 where the search is stopped and isn't at its end; 3 where the folder or the source can't be gone on with. No proof is
claimed of this tool; the program that it calls is proved.
"""
import ctypes
import fcntl
import os
import re
import shutil
import signal
import subprocess
import sys
import tempfile
import time
from dataclasses import dataclass
from pathlib import Path

import dossiers

USAGE = "search: search FOLDER [--budget N] [--log] [--slices N] is wanted; --help tells more"
STATUS_STOPPED = 7
DEFAULT_BUDGET, MOST_BUDGET = 10_000_000, 1_000_000_000_000_000
TEMPORARY = ".being_written_"
END_LINE = re.compile(rb"end (finished|spent) designs (\d+) nodes (\d+)(?: next (\d+(?: \d+)*))?\n\Z")
DIES_WITH_ITS_PARENT = 1  # the number that Linux gives to PR_SET_PDEATHSIG


@dataclass(frozen=True)
class Request:
    """The words of the command line. A budget that isn't stated is None."""
    folder: Path
    budget: int
    log: bool
    slices: int


@dataclass(frozen=True)
class Settings:
    """What belongs to a folder and holds for all its slices."""
    budget: int
    log: bool

    @property
    def words(self):
        return ["--budget", str(self.budget)] + (["--log"] if self.log else [])

    @property
    def text(self):
        return f"budget {self.budget}\nlog {'yes' if self.log else 'no'}\n"


@dataclass(frozen=True)
class End:
    """The end line of a slice."""
    word: str
    designs: int
    nodes: int
    path: tuple


class Stopped(Exception):
    """A signal asked the search to stop."""


# Words

def request_of(words):
    """The request, or None where the words are wrong."""
    options, places, rest = {}, [], list(words)
    while rest:
        word = rest.pop(0)
        if word in options:
            return None
        if word == "--log":
            options[word] = True
        elif word in ("--budget", "--slices"):
            options[word] = count_of(rest.pop(0) if rest else "")
        elif word.startswith("-"):
            return None
        else:
            places.append(word)
    if len(places) != 1 or None in options.values():
        return None
    return Request(Path(places[0]), options.get("--budget"), options.get("--log", False), options.get("--slices"))


def count_of(word):
    """A number from 1 to the largest budget, or None."""
    if re.fullmatch(r"[0-9]{1,19}", word) and 1 <= int(word) <= MOST_BUDGET:
        return int(word)
    return None


# Files, which are whole or not there

def write_whole(place, fill):
    """Makes a file that 'fill' writes, under a name of its own until it is whole and on the disk."""
    handle, name = tempfile.mkstemp(prefix=TEMPORARY, dir=place.parent)
    try:
        with os.fdopen(handle, "w+b") as file:
            fill(file)
            file.flush()
            os.fsync(file.fileno())
        os.chmod(name, 0o644)
        os.rename(name, place)
    except BaseException:
        Path(name).unlink(missing_ok=True)
        raise
    keep_names(place.parent)


def keep_names(folder):
    """Puts the names in a folder on the disk."""
    handle = os.open(folder, os.O_RDONLY)
    try:
        os.fsync(handle)
    finally:
        os.close(handle)


def slice_place(folder, number):
    return folder / f"slice_{number:08}.dossier"


def end_of(place):
    """The end line of a slice, read from the last bytes of its file."""
    size = 4096
    with open(place, "rb") as file:
        length = file.seek(0, os.SEEK_END)
        while True:
            file.seek(max(0, length - size))
            found = END_LINE.search(file.read())
            if found or size >= length:
                break
            size *= 16
    if not found:
        raise dossiers.Refusal(dossiers.STATUS_BAD_INPUT, f"{place} has no end line: it wasn't written by this tool")
    path = tuple(map(int, found[4].split())) if found[4] else ()
    return End(found[1].decode(), int(found[2]), int(found[3]), path)


def slices_of(folder):
    """The end lines of the slices that are there, in order. A missing or needless slice is refused."""
    places = sorted(folder.glob("slice_*.dossier"))
    ends = []
    for number, place in enumerate(places, 1):
        if place != slice_place(folder, number):
            raise dossiers.Refusal(dossiers.STATUS_BAD_INPUT, f"{slice_place(folder, number)} is missing")
        ends.append(end_of(place))
    for number, end in enumerate(ends[:-1], 1):
        if end.word == dossiers.FINISHED:
            raise dossiers.Refusal(dossiers.STATUS_BAD_INPUT, f"{slice_place(folder, number)} has finished, and a slice follows")
    return ends


# The folder

def lock(folder):
    """Keeps other searches out of the folder while this one lives. The handle has to be kept."""
    handle = open(folder / "lock", "w")
    try:
        fcntl.flock(handle, fcntl.LOCK_EX | fcntl.LOCK_NB)
    except OSError:
        raise dossiers.Refusal(dossiers.STATUS_BAD_INPUT, f"another search runs in {folder}") from None
    return handle


def settings_of(folder):
    text = (folder / "settings").read_text()
    found = re.fullmatch(r"budget (\d+)\nlog (yes|no)\n", text)
    if not found:
        raise dossiers.Refusal(dossiers.STATUS_BAD_INPUT, f"{folder / 'settings'} wasn't written by this tool")
    return Settings(int(found[1]), found[2] == "yes")


def begin(request):
    """Writes the source and then the settings. With the settings the folder is one that can be gone on with."""
    foreign = [place.name for place in request.folder.iterdir() if not place.name.startswith(TEMPORARY)
               and place.name not in ("lock", "source.df")]
    if foreign:
        raise dossiers.Refusal(dossiers.STATUS_BAD_INPUT, f"{request.folder} has other files, such as {min(foreign)}")
    source = dossiers.read_input()
    dossiers.answer_of(["show"], source)
    settings = Settings(request.budget or DEFAULT_BUDGET, request.log)
    write_whole(request.folder / "source.df", lambda file: file.write(source.encode("utf-8", errors="surrogateescape")))
    write_whole(request.folder / "settings", lambda file: file.write(settings.text.encode()))
    return settings


def go_on(request):
    """The settings of a folder, with which the words and a source on standard input have to agree."""
    settings = settings_of(request.folder)
    if request.budget not in (None, settings.budget) or (request.log and not settings.log):
        raise dossiers.Refusal(dossiers.STATUS_BAD_INPUT,
                               f"the search in {request.folder} was begun with: {' '.join(settings.words)}; begin another folder")
    source = "" if sys.stdin.isatty() else dossiers.read_input()
    if source and source.encode("utf-8", errors="surrogateescape") != (request.folder / "source.df").read_bytes():
        raise dossiers.Refusal(dossiers.STATUS_BAD_INPUT, f"the search in {request.folder} is of another source")
    return settings


def remove_remains(folder):
    """Removes what a search that was stopped left half written."""
    for place in folder.glob(TEMPORARY + "*"):
        place.unlink()


# Slices

def die_with_parent():
    """Asks Linux to end this process with its parent; elsewhere it only ends when its slice is done, and writes to no file."""
    if sys.platform.startswith("linux"):
        ctypes.CDLL(None).prctl(DIES_WITH_ITS_PARENT, signal.SIGKILL)


@dataclass
class Runner:
    """Calls the program, until a signal asks to stop. A signal only ends the program, so that nothing here is left half done."""
    asked_to_stop: bool = False
    program: subprocess.Popen = None

    def listen(self):
        """From now on signals ask to stop. One that was ignored, as 'nohup' has it, stays so."""
        for number in (signal.SIGINT, signal.SIGTERM, signal.SIGHUP):
            if signal.getsignal(number) != signal.SIG_IGN:
                signal.signal(number, self.stop)

    def stop(self, number, frame):
        self.asked_to_stop = True
        if self.program:
            self.program.kill()

    def start(self, words, **streams):
        """The program at work, in a session of its own: the interrupt key reaches this tool alone."""
        self.program = subprocess.Popen([dossiers.program_path(), *words], start_new_session=True, preexec_fn=die_with_parent,
                                        **streams)
        if self.asked_to_stop:
            self.program.kill()
        return self.program

    def status(self):
        """Waits for the program: its status, where it wasn't stopped."""
        status = self.program.wait()
        self.program = None
        if self.asked_to_stop and status < 0:
            raise Stopped
        return status


def run_slice(runner, folder, settings, number):
    """Runs the program once and keeps its dossier."""
    word, place = ("solve", folder / "source.df") if number == 1 else ("resume", slice_place(folder, number - 1))

    def fill(file):
        with open(place, "rb") as text:
            runner.start([word, *settings.words], stdin=text, stdout=file)
        status = runner.status()
        if status not in (0, STATUS_STOPPED):
            raise dossiers.Refusal(status if status > 0 else dossiers.STATUS_WRITE_FAILED, told_by(file, word, status))
    write_whole(slice_place(folder, number), fill)


def told_by(file, word, status):
    """The first line that the program wrote, or that it wrote none."""
    file.seek(0)
    first = file.readline().decode("utf-8", errors="replace").rstrip("\n")
    return first or f"'{word}' ended with status {status}"


def share_before(path):
    """The share of the tree before a path: each decision halves what is left, and no comes after yes."""
    length, chosen = (path[0], set(path[1:])) if path else (0, set())
    share, part = 0.0, 0.5
    for column in range(min(length, 60)):
        if column not in chosen:
            share += part
        part /= 2
    return share


@dataclass
class Progress:
    """What is shown of a search. Nodes a second are those of this call."""
    ends: list
    began: float
    nodes_before: int

    @property
    def text(self):
        nodes = sum(end.nodes for end in self.ends)
        seconds = max(time.monotonic() - self.began, 1e-6)
        last = self.ends[-1]
        share = 1.0 if last.word == dossiers.FINISHED else share_before(last.path)
        return (f"slice {len(self.ends)}: {sum(end.designs for end in self.ends)} designs, {nodes} nodes, "
                f"{(nodes - self.nodes_before) / seconds:.0f} nodes a second, {100 * share:.6f}% of the tree")

    def show(self):
        """On a terminal the line is written over; elsewhere there is one for each slice."""
        line = f"\r{self.text}\033[K" if sys.stderr.isatty() else self.text + "\n"
        print(line, end="", file=sys.stderr, flush=True)

    def close(self):
        if sys.stderr.isatty():
            print(file=sys.stderr)


def is_finished(ends):
    return bool(ends) and ends[-1].word == dossiers.FINISHED


def run_slices(runner, folder, settings, ends, most):
    """Runs slices until the search has finished, or as many as are asked for, or until it is asked to stop."""
    progress = Progress(ends, time.monotonic(), sum(end.nodes for end in ends))
    count = 0
    try:
        while not (is_finished(ends) or runner.asked_to_stop or count == most):
            run_slice(runner, folder, settings, len(ends) + 1)
            ends.append(end_of(slice_place(folder, len(ends) + 1)))
            count += 1
            progress.show()
    finally:
        progress.close()


# The end

def check(runner, folder, count):
    """What 'check' answers of all slices, one after another: its status and its text."""
    program = runner.start(["check"], stdin=subprocess.PIPE, stdout=subprocess.PIPE)
    try:
        for number in range(1, count + 1):
            with open(slice_place(folder, number), "rb") as text:
                shutil.copyfileobj(text, program.stdin)
        program.stdin.close()
    except BrokenPipeError:
        pass  # it ended before its input; its status says why
    answer = program.stdout.read().decode()
    return runner.status(), answer


def tell_end(runner, folder, settings, ends):
    designs = sum(end.designs for end in ends)
    dossiers.write_answer(f"finished designs {designs} nodes {sum(end.nodes for end in ends)} slices {len(ends)}\n")
    if settings.log:
        status, answer = check(runner, folder, len(ends))
        dossiers.write_answer(answer)
        if status != 0:
            raise dossiers.Refusal(status if status > 0 else dossiers.STATUS_WRITE_FAILED, f"the logs in {folder} aren't complete")
        if answer != f"complete {designs}\n":
            raise dossiers.Refusal(dossiers.STATUS_REFUSED, f"the end lines in {folder} tell {designs} designs")


def search(request):
    request.folder.mkdir(parents=True, exist_ok=True)
    handle = lock(request.folder)
    try:
        remove_remains(request.folder)
        begun = (request.folder / "settings").exists()
        settings = go_on(request) if begun else begin(request)
        ends = slices_of(request.folder)
        runner = Runner()
        runner.listen()
        run_slices(runner, request.folder, settings, ends, request.slices)
        if not is_finished(ends):
            raise Stopped
        tell_end(runner, request.folder, settings, ends)
    except (Stopped, KeyboardInterrupt):
        raise dossiers.Refusal(STATUS_STOPPED, f"stopped; 'search {request.folder}' goes on") from None
    finally:
        handle.close()


def main(words):
    if words in (["--help"], ["-h"]):
        dossiers.write_answer(__doc__.lstrip())
        return 0
    request = request_of(words)
    if request is None:
        print(USAGE, file=sys.stderr)
        return dossiers.STATUS_USAGE
    return dossiers.ended_with("search", lambda: search(request))


if __name__ == "__main__":
    sys.exit(main(sys.argv[1:]))
