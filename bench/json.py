#!/usr/bin/env python3
"""Measures `solve` as a dossier and as a JSON listing, of cyclic triple systems: seconds, megabytes of memory and of text.

json.py [PROGRAM] [POINTS..]    PROGRAM is crates/df_main/out/df_main where it isn't given, POINTS are 43

On 43 points there are 395,648 designs. Each text is written to a file, and again as one with all blocks of each design, where POINTS
are below 43. The seconds are those of the processor, the least of three runs; the memory is the most that a run held.
"""
import os, pathlib, subprocess, sys, tempfile


def run(program, words, source, out):
    """The processor's seconds and the megabytes of a run, whose text goes to a file; and the size of that text."""
    out.seek(0)
    out.truncate()
    process = subprocess.Popen([program, *words], stdin=subprocess.PIPE, stdout=out)
    process.stdin.write(source)
    process.stdin.close()
    _, status, used = os.wait4(process.pid, 0)
    process.returncode = os.waitstatus_to_exitcode(status)
    return process.returncode, used.ru_utime + used.ru_stime, used.ru_maxrss / 1024, os.fstat(out.fileno()).st_size / 1e6


def main():
    words = sys.argv[1:]
    here = pathlib.Path(__file__).resolve().parent.parent
    program = words.pop(0) if words and not words[0].isdigit() else str(here / "crates/df_main/out/df_main")
    print("points                   words  status  seconds  memory MB   text MB")
    with tempfile.TemporaryFile() as out:
        for points in map(int, words or ["43"]):
            source = f"group {points}\nk 3\nlambda 1\n".encode()
            for options in ([], ["--json"], ["--blocks"], ["--json", "--blocks"]):
                if "--blocks" in options and points >= 43:
                    continue
                runs = [run(program, ["solve", *options], source, out) for _ in range(3)]
                status, seconds, memory, size = min(runs, key=lambda told: told[1])
                print(f"{points:6} {' '.join(['solve', *options]):>23} {status:7} {seconds:8.2f} {memory:10.1f} {size:9.1f}")


if __name__ == "__main__":
    main()
