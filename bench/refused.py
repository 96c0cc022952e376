#!/usr/bin/env python3
"""Runs commands with each growth of memory refused in turn, and prints a table of how they end.

refused.py [PROGRAM]    PROGRAM is crates/df_main/out/df_main where it isn't given

A library that gcc builds of a few lines of C stands before the C library's malloc and realloc: it counts their calls, and answers one
of them, of a number that is told, with no memory, or that one and all after it. Each run has to end with the whole answer and its
status; or with status 6, or 9 where the words of the command line couldn't be had, and then with nothing written. The status of this
script is 1 where a run ends otherwise, or where no run of a row is refused.
"""
import os
import pathlib
import subprocess
import sys
import tempfile

TOP = pathlib.Path(__file__).resolve().parent.parent
NO_MEMORY, NO_WORDS = 6, 9
SHIM = r"""
#define _GNU_SOURCE
#include <dlfcn.h>
#include <stdio.h>
#include <stdlib.h>

static unsigned long calls, from, to;
static int is_set;

static int is_refused(void) {
    if (!is_set) {
        const char *first = getenv("REFUSE_FROM"), *last = getenv("REFUSE_TO");
        from = first ? strtoul(first, 0, 10) : 0;
        to = last ? strtoul(last, 0, 10) : 0;
        is_set = 1;
    }
    calls++;
    return from <= calls && calls <= to;
}

void *malloc(size_t size) {
    static void *(*real)(size_t);
    if (!real) real = (void *(*)(size_t)) dlsym(RTLD_NEXT, "malloc");
    return is_refused() ? 0 : real(size);
}

void *realloc(void *old, size_t size) {
    static void *(*real)(void *, size_t);
    if (!real) real = (void *(*)(void *, size_t)) dlsym(RTLD_NEXT, "realloc");
    return is_refused() ? 0 : real(old, size);
}

__attribute__((destructor)) static void tell(void) {
    /* the file takes memory too */
    unsigned long made = calls;
    const char *name = getenv("CALLS_TO");
    FILE *file = name ? fopen(name, "w") : 0;
    if (file) {
        fprintf(file, "%lu", made);
        fclose(file);
    }
}
"""

FANO = "group 7 / k 3 / lambda 1 / base 0 1 3"
NAMED = "group 3 5 / subgroup H 0,1 / k 3 / lambda 1 / inside H 0 / base 0,0 0,1 1,3"
PLANES = "group 13 / k 4 / lambda 1"
FIXED = "group 8 / fixed 1 / k 3 / lambda 1"
TRIPLES = "group 25 / k 3 / lambda 1"


def source(text: str) -> bytes:
    return (text.replace(" / ", "\n") + "\n").encode()


def build(folder: pathlib.Path) -> str:
    code, library = folder / "refusing.c", folder / "refusing.so"
    code.write_text(SHIM)
    subprocess.run(["gcc", "-O1", "-shared", "-fPIC", "-o", library, code, "-ldl"], check=True)
    return str(library)


def rows(program: str) -> list[tuple[str, bytes]]:
    """The words and the input of each row."""
    def text_of(words: str, text: str) -> bytes:
        return subprocess.run([program, *words.split()], input=source(text), stdout=subprocess.PIPE).stdout

    return [
        ("show", source(NAMED)),
        ("verify", source(FANO)),
        ("table", source(NAMED)),
        ("orbits", source(FIXED)),
        ("matrix", source(PLANES)),
        ("solve", source(PLANES)),
        ("solve --log --blocks", source(FIXED)),
        ("solve --json --blocks", source(TRIPLES)),
        ("solve --budget 2", source(PLANES)),
        ("resume --log", text_of("solve --log --budget 2", PLANES)),
        ("check", text_of("solve --log", PLANES)),
        ("check", text_of("solve --log", TRIPLES)),
        ("workload 2", b""),
        ("solve --budget", b""),
    ]


class Refusals:
    """A program whose calls for memory can be refused."""

    def __init__(self, program: str, library: str, folder: pathlib.Path):
        self.program, self.library, self.told = program, library, folder / "calls"

    def run(self, words: str, text: bytes, first: int = 0, last: int = 0) -> tuple[int, bytes]:
        settings = {**os.environ, "LD_PRELOAD": self.library, "REFUSE_FROM": str(first), "REFUSE_TO": str(last), "CALLS_TO": str(self.told)}
        child = subprocess.run([self.program, *words.split()], input=text, stdout=subprocess.PIPE, env=settings)
        return child.returncode, child.stdout

    def count(self, words: str, text: bytes) -> tuple[tuple[int, bytes], int]:
        """The answer of a run with all its memory, and how often it asked for some."""
        answer = self.run(words, text)
        return answer, int(self.told.read_text())


def is_clean(answer: tuple[int, bytes], whole: tuple[int, bytes]) -> bool:
    return answer == whole or answer in ((NO_MEMORY, b""), (NO_WORDS, b""))


def main() -> None:
    program = sys.argv[1] if len(sys.argv) > 1 else str(TOP / "crates/df_main/out/df_main")
    is_well = True
    print(f"{'command':24} {'input':>7} {'answer':>7} {'calls':>6} {'refused':>8} {'answered':>9} {'otherwise':>10}")
    with tempfile.TemporaryDirectory() as name:
        folder = pathlib.Path(name)
        refusals = Refusals(program, build(folder), folder)
        for words, text in rows(program):
            whole, calls = refusals.count(words, text)
            answers = [refusals.run(words, text, first, last) for first in range(1, calls + 1) for last in (first, 1 << 60)]
            refused = sum(answer != whole and is_clean(answer, whole) for answer in answers)
            other = sum(not is_clean(answer, whole) for answer in answers)
            is_well = is_well and other == 0 and (refused > 0 or calls == 0)
            answered = len(answers) - refused - other
            print(f"{words:24} {len(text):7} {len(whole[1]):7} {calls:6} {refused:8} {answered:9} {other:10}", flush=True)
    sys.exit(0 if is_well else 1)


if __name__ == "__main__":
    main()
