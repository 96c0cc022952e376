#!/usr/bin/env python3
"""Gives the program the largest inputs there are, and prints a table of seconds and memory.

large.py [PROGRAM] [--rows WORD]    PROGRAM is crates/df_main/out/df_main where it isn't given; WORD takes the rows whose name holds it

`check` and `resume` read streams of 4,294,967,296 bytes and of one more, lines of 1 GiB, and a hundred million lines; each is made
while it is read, and stored nowhere. The other commands read sources of nearly 1 MiB of the shapes that cost most. The seconds are those
of the processor, of one run. The memory is the most that the process held, looked up each two milliseconds. Each row has to end with
the status that it names, and the streams with the text that their short form has, too; the status is 1 where one doesn't.
"""
import os, pathlib, subprocess, sys, threading, time

MOST_SOURCE = 1 << 20
MOST_DOSSIERS = 1 << 32
PIECE = 1 << 20
TOO_LONG = 8


def source(lines):
    return "".join(line + "\n" for line in lines).encode()


# Running

def held_by(process):
    """The most bytes that a process has held so far, or 0 where it has ended."""
    try:
        for line in pathlib.Path(f"/proc/{process}/status").read_text().splitlines():
            if line.startswith("VmHWM:"):
                return int(line.split()[1]) * 1024
    except OSError:
        pass
    return 0


def feed(child, pieces):
    """Writes the pieces of an input, as long as they are read, and ends it when the memory was looked up."""
    try:
        for piece in pieces:
            child.stdin.write(piece)
        time.sleep(0.02)
        child.stdin.close()
    except BrokenPipeError:
        pass


def measured(program, words, pieces):
    """The status, the text, the seconds and the most bytes held of a run."""
    child = subprocess.Popen([program, *words.split()], stdin=subprocess.PIPE, stdout=subprocess.PIPE, bufsize=0)
    texts = []
    threads = [threading.Thread(target=feed, args=(child, pieces)), threading.Thread(target=lambda: texts.append(child.stdout.read()))]
    for thread in threads:
        thread.start()
    held = 0
    while os.waitid(os.P_PID, child.pid, os.WEXITED | os.WNOWAIT | os.WNOHANG) is None:
        held = max(held, held_by(child.pid))
        time.sleep(0.002)
    for thread in threads:
        thread.join()
    _, status, usage = os.wait4(child.pid, 0)
    child.returncode = os.waitstatus_to_exitcode(status)
    return child.returncode, texts[0], usage.ru_utime + usage.ru_stime, held


# Streams

PLANE = ["group 7", "k 3", "lambda 1"]
BEGIN = source(["dossier 2", "source 3", *PLANE, "from 0", "branch 0", "settled"])
ENDS = {
    "check": source(["design 0 1 3", "branch 1", "settled", "design 0 1 5", "under 0", "end finished designs 2 nodes 4"]),
    "resume": source(["design 0 1 3", "end spent designs 1 nodes 2 next 1"]),
}
ANSWERS = {
    "check": b"complete 2\n",
    "resume": source(["dossier 2", "source 6", "group 7", "fixed 0", "shift all", "k 3", "lambda 1", "hole 1", "from 1", "design 0 1 5",
                      "end finished designs 1 nodes 2"]),
}


def times(piece, size):
    """The bytes of a piece again and again, in pieces of about 1 MiB, up to so many bytes."""
    many = piece * max(1, PIECE // len(piece))
    while size > 0:
        yield many[:size]
        size -= len(many)


def stream(command, size, line):
    """A dossier of so many bytes, with one line again and again in its log; the last such line may be cut."""
    size -= len(BEGIN) + len(ENDS[command]) + 1
    yield BEGIN
    yield from times(line, size)
    yield b"\n" + ENDS[command]


def long_line(command, first, size):
    """A dossier with one line that begins with some bytes and has so many."""
    yield BEGIN + first
    yield from times(b" ", size - len(first))
    yield b"\n" + ENDS[command]


def many_lines(command, line, count):
    yield BEGIN
    yield from times(line, len(line) * count)
    yield ENDS[command]


def streams():
    """The name, the words, the bytes, the status and the text of each stream, and what makes it."""
    for command in ("check", "resume"):
        answer = ANSWERS[command]
        for line in (b"#" * 63 + b"\n", b"\n"):
            name = f"lines of {len(line)}"
            yield f"4 GiB, {name}", command, MOST_DOSSIERS, 0, answer, lambda c=command, x=line: stream(c, MOST_DOSSIERS, x)
            yield f"one byte more, {name}", command, MOST_DOSSIERS + 1, TOO_LONG, b"", lambda c=command, x=line: stream(c, MOST_DOSSIERS + 1, x)
        yield "a comment of 1 GiB", command, 1 << 30, 0, answer, lambda c=command: long_line(c, b"#", 1 << 30)
        yield "blanks of 1 GiB", command, 1 << 30, 0, answer, lambda c=command: long_line(c, b" ", 1 << 30)
        yield "100,000,000 comments", command, 200000000, 0, answer, lambda c=command: many_lines(c, b"#\n", 100000000)


# Sources

def filled(lines, line_of):
    """The lines and as many more of a kind as fit in 1 MiB."""
    lines, room, place = list(lines), MOST_SOURCE - len(source(lines)), 0
    while True:
        line = line_of(place)
        room -= len(line) + 1
        if room < 0:
            return lines
        lines.append(line)
        place += 1


def token_line(lines, word, tokens):
    """The lines with one line at a place that takes all that is left of 1 MiB with the same tokens over and over."""
    room = MOST_SOURCE - len(source([*lines, word])) - 1
    return f"{word} " + (tokens * (room // len(tokens))).rstrip()


def short_name(place):
    letters = "ABCDEFGHIJKLMNOPQRSTUVWXYZ"
    name = letters[place % 26]
    while place := place // 26:
        name += letters[place % 26]
    return name


def block(place, size=16, points=128):
    """A block of points, other ones at another place."""
    step = 1 + 2 * (place % 30)
    return " ".join(str((place + step * p) % points) for p in range(size))


def sources():
    """The name and the lines of each shape of source."""
    cyclic, factors = ["group 128", "k 16", "lambda 1"], ["group 2 2 2 2 2 2 2", "k 3", "lambda 1"]
    bits = lambda n: ",".join(str(n >> b & 1) for b in range(7))
    yield "names", filled(cyclic, lambda n: f"subgroup {short_name(n)}")
    yield "names of one generator", filled(cyclic, lambda n: f"subgroup {short_name(n)} 1")
    yield "names of 16 bytes", filled(cyclic, lambda n: f"subgroup a{n:015}")
    yield "names of seven generators", filled(factors, lambda n: f"subgroup {short_name(n)} " + " ".join(bits(1 << b) for b in range(7)))
    yield "generators in one line", [*cyclic, token_line(cyclic, "subgroup N", "1 2 64 127 ")]
    yield "generators of seven factors", [*factors, token_line(factors, "subgroup N", bits(1) + " " + bits(127) + " ")]
    both = [f"{word} {block(n)}" for word in ("base", "require") for n in range(4096)]
    yield "blocks", ["version 2", *cyclic, *both]
    yield "short blocks", [*cyclic] + [f"short {block(n)}" for n in range(4096)]
    sizes = ["version 2", "group 24", "lambda 1"]
    yield "sizes", ["version 2", "group 24", token_line(sizes, "k", "2 3 4 5 "), "lambda 1"]
    multipliers = ["group 127", "k 3", "lambda 1"]
    yield "multipliers", [*multipliers, token_line(multipliers, "mult", "1 2 126 18446744073709551615 ")]
    yield "zeros", [*PLANE[:2], "lambda " + "0" * (MOST_SOURCE - 40) + "1"]
    yield "empty lines", [*PLANE, *[""] * (MOST_SOURCE - len(source(PLANE)))]
    yield "a point too many", [*PLANE, token_line(PLANE, "base", "0 1 3 ")]
    asked = ["version 2", "group 61", "k 4", "lambda 1"]
    yield "required blocks", asked + [f"require {block(n, 4, 61)}" for n in range(4096)]
    yield "forbidden blocks", asked + [f"forbid {block(n, 4, 61)}" for n in range(4096)]


def source_rows():
    for name, lines in sources():
        data = source(lines)
        if len(data) > MOST_SOURCE:
            sys.exit(f"{name}: {len(data)} bytes")
        for words in ("show", "verify", "table", "matrix", "solve --budget 100"):
            yield name, words, len(data), None, None, lambda data=data: [data]


def is_answer(name, status, text):
    """An answer to a source that states a problem; one of the shapes doesn't."""
    if status == 3:
        return text.startswith(b"limit ") or name == "a point too many" and text == b"source refused line 4 PointTwice\n"
    return status in (0, 1, 7)


def main():
    words, rows = sys.argv[1:], ""
    if "--rows" in words:
        place = words.index("--rows")
        rows = words[place + 1]
        words = words[:place] + words[place + 2:]
    top = pathlib.Path(__file__).resolve().parent.parent
    program = words[0] if words else str(top / "crates/df_main/out/df_main")
    failed = False
    print(f"{'input':30} {'command':18} {'bytes':>10} {'status':>6} {'seconds':>8} {'memory':>11}")
    for row in (*streams(), *source_rows()):
        name, command, size, wanted, text, pieces = row
        if rows not in name:
            continue
        status, got, seconds, held = measured(program, command, pieces())
        wrong = not is_answer(name, status, got) if wanted is None else (status, got) != (wanted, text)
        failed = failed or wrong
        print(f"{name:30} {command:18} {size:10} {status:6} {seconds:8.2f} {held:11}" + f"  wrong: {got[:60]!r}" * wrong, flush=True)
    sys.exit(1 if failed else 0)


if __name__ == "__main__":
    main()
