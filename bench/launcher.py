#!/usr/bin/env python3
"""Measures what the launcher adds to a call of the program, and prints a table.

launcher.py [CALLS]    CALLS is how often each is called, 200 where it isn't given; the program has to be built: call ./wakhtsime once

The launcher and the program of its bin/ take turns with 'verify' of a source of a few lines. Times are milliseconds from the start
of a process to its end, and of the processor, with the processes that it starts.
"""
import os
import pathlib
import resource
import subprocess
import sys
import time

ROOT = pathlib.Path(__file__).resolve().parent.parent
SOURCE = b"group 7\nk 3\nlambda 1\nbase 0 1 3\n"


def call(command):
    """The milliseconds of one call, and those of the processor."""
    before, start = resource.getrusage(resource.RUSAGE_CHILDREN), time.perf_counter()
    done = subprocess.run([command, "verify"], input=SOURCE, capture_output=True)
    end, after = time.perf_counter(), resource.getrusage(resource.RUSAGE_CHILDREN)
    if done.returncode != 0 or done.stderr:
        sys.exit(f"{command}: status {done.returncode} and '{done.stderr.decode().strip()}'")
    used = after.ru_utime + after.ru_stime - before.ru_utime - before.ru_stime
    return 1000 * (end - start), 1000 * used


def main(words):
    calls = int(words[0]) if words else 200
    commands = {"launcher": ROOT / "wakhtsime", "program": ROOT / "bin/df_main"}
    if not os.access(commands["program"], os.X_OK):
        sys.exit("bin/df_main isn't built: call ./wakhtsime once")
    times = {name: [] for name in commands}
    for _ in range(calls):
        for name, command in commands.items():
            times[name].append(call(command))
    print("            least  median  processor")
    for name, pairs in times.items():
        whole, used = sorted(pair[0] for pair in pairs), sum(pair[1] for pair in pairs) / calls
        print(f"{name:10}  {whole[0]:5.1f}  {whole[calls // 2]:6.1f}  {used:9.1f}")


if __name__ == "__main__":
    main(sys.argv[1:])
