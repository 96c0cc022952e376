"""The program under test: that of the environment variable WAKHTSIME_PROGRAM, or else the built one."""
import os, pathlib, subprocess, sys

TOP = pathlib.Path(__file__).resolve().parent.parent
sys.path.append(str(TOP / "bench"))
PROGRAM = os.environ.get("WAKHTSIME_PROGRAM") or str(TOP / "crates/df_main/out/df_main")
SECONDS = 120


def need_program():
    """Ends the tests where there is no program; none of them passes without one."""
    if not os.access(PROGRAM, os.X_OK):
        raise RuntimeError(f"{PROGRAM} isn't a program: build it, or name one in WAKHTSIME_PROGRAM")


def ask(words, data):
    """The status and the text of the program for some words and an input."""
    done = subprocess.run([PROGRAM, *words.split()], input=data, stdout=subprocess.PIPE, timeout=SECONDS)
    return done.returncode, done.stdout


def source(text):
    """A source of lines with slashes between them."""
    return (text.replace(" / ", "\n") + "\n").encode()
