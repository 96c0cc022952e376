#!/usr/bin/env python3
"""Measures `check` on the logs of searches, beside the `solve --log` that wrote them, and prints a table.

check.py [PROGRAM] [--beside OTHER]    PROGRAM is crates/df_main/out/df_main where it isn't given

OTHER is a program with the same commands, or the folder of one in Rust, which cargo builds in a folder of its own. Each log is
written by PROGRAM and stands in a file, which is the standard input of `check`; what is measured of `solve --log` is a run whose
text is thrown away. The seconds are those of the processor, the least of three runs, in which all take turns. The memory is the
most that a process of `check` held at any time, looked up each two milliseconds. Each `check` has to say `complete` and the
number of designs that the log ends with.
"""
import os, pathlib, subprocess, sys, tempfile, time

# cyclic triple systems on 31, 33 and 37 points, and twofold ones on 43 that a multiplier of order 3 keeps: 0.8, 2.3, 15.8 and
# 18.2 million lines
SOURCES = [
    ["group 31", "k 3", "lambda 1"],
    ["group 33", "k 3", "lambda 1"],
    ["group 37", "k 3", "lambda 1"],
    ["group 43", "mult 6", "k 3", "lambda 2"],
]
RUNS = 3


def build(folder, place):
    """The program that cargo builds of the Rust program in a folder."""
    print("building; this takes a minute", file=sys.stderr)
    words = ["cargo", "build", "--release", "--quiet", "--target-dir", folder / "target"]
    subprocess.run(words, cwd=place, check=True)
    found = [f for f in (folder / "target" / "release").iterdir() if f.is_file() and os.access(f, os.X_OK)]
    if len(found) != 1:
        sys.exit(f"{place}: not one program but {len(found)}")
    return str(found[0])


def write_log(program, source, path):
    """Writes the log of a source. Gives its number of lines, of bytes, and of designs by its last line."""
    with open(path, "wb") as out:
        child = subprocess.run([program, "solve", "--log"], input=source, stdout=out)
    lines, tail = 0, b""
    with open(path, "rb") as text:
        while piece := text.read(1 << 20):
            lines += piece.count(b"\n")
            tail = (tail + piece)[-4096:]
    last = tail.rstrip(b"\n").split(b"\n")[-1].split()
    if child.returncode != 0 or last[:3] != [b"end", b"finished", b"designs"]:
        sys.exit(f"{program} solve --log: status {child.returncode}, {last!r}")
    return lines, path.stat().st_size, int(last[3])


def held_by(process):
    """The most bytes that a process has held so far, or 0 where it has ended."""
    try:
        for line in pathlib.Path(f"/proc/{process}/status").read_text().splitlines():
            if line.startswith("VmHWM:"):
                return int(line.split()[1]) * 1024
    except OSError:
        pass
    return 0


def seconds(child):
    """The processor's seconds of a process, which is waited for."""
    _, status, usage = os.wait4(child.pid, 0)
    child.returncode = os.waitstatus_to_exitcode(status)
    return usage.ru_utime + usage.ru_stime


def solve(program, source):
    """The seconds of `solve --log`, whose text is thrown away."""
    child = subprocess.Popen([program, "solve", "--log"], stdin=subprocess.PIPE, stdout=subprocess.DEVNULL)
    child.stdin.write(source)
    child.stdin.close()
    return seconds(child)


def check(program, path, designs):
    """The seconds of `check`, and the most bytes that it held."""
    held = 0
    with open(path, "rb") as text:
        child = subprocess.Popen([program, "check"], stdin=text, stdout=subprocess.PIPE)
    while os.waitid(os.P_PID, child.pid, os.WEXITED | os.WNOWAIT | os.WNOHANG) is None:
        held = max(held, held_by(child.pid))
        time.sleep(0.002)
    took, answer = seconds(child), child.stdout.read()
    if child.returncode != 0 or answer != b"complete %d\n" % designs:
        sys.exit(f"{program} check: status {child.returncode}, {answer!r}, not 'complete {designs}'")
    return took, held


def row(program, other, lines, path):
    source = ("\n".join(lines) + "\n").encode()
    count, size, designs = write_log(program, source, path)
    wrote, checked, beside, held, held_beside = [], [], [], 0, 0
    for _ in range(RUNS):
        wrote.append(solve(program, source))
        took, most = check(program, path, designs)
        checked.append(took)
        held = max(held, most)
        if other:
            took, most = check(other, path, designs)
            beside.append(took)
            held_beside = max(held_beside, most)
    nanoseconds = lambda times: f"{min(times):7.3f} {min(times) * 1e9 / count:7.1f}"
    text = f"{' / '.join(lines):35} {designs:7} {count:9} {size:10} {nanoseconds(wrote)} {nanoseconds(checked)} "
    text += f"{min(checked) / min(wrote):8.2f} {held:9}"
    if other:
        text += f" {nanoseconds(beside)} {min(checked) / min(beside):9.2f} {held_beside:10}"
    print(text, flush=True)


def main():
    words, other = sys.argv[1:], None
    if "--beside" in words:
        place = words.index("--beside")
        other = words[place + 1]
        words = words[:place] + words[place + 2:]
    top = pathlib.Path(__file__).resolve().parent.parent
    program = words[0] if words else str(top / "crates/df_main/out/df_main")
    with tempfile.TemporaryDirectory() as name:
        folder = pathlib.Path(name)
        if other and os.path.isdir(other):
            other = build(folder, other)
        head = f"{'problem':35} {'designs':>7} {'lines':>9} {'bytes':>10} {'solve':>7} {'ns/line':>7} {'check':>7} {'ns/line':>7} to solve    memory"
        print(head + "  beside ns/line to beside its memory" * bool(other))
        for lines in SOURCES:
            row(program, other, lines, folder / "log")


if __name__ == "__main__":
    main()
