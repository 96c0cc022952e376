"""Copies crates of this repository, with all crates that they use, beside a program of a script's own, and builds it."""
import pathlib, shutil, subprocess, sys

TOP = pathlib.Path(__file__).resolve().parent.parent


def lines_of(names):
    """The lines of crates.txt for these crates and all that they use, each after those that it uses."""
    uses = {}
    for line in (TOP / "crates.txt").read_text().splitlines():
        if line and not line.startswith("#"):
            name, _, rest = line.partition(":")
            uses[name.split()[0]] = rest.split()
    found = {}

    def add(name):
        # a crate that crates.txt doesn't list is one of the kit's
        if name in uses and name not in found:
            for other in uses[name]:
                add(other)
            found[name] = f"{name}: {' '.join(uses[name])}".rstrip()

    for name in names:
        add(name)
    return found


def copy(folder, program, names):
    """Writes crates.txt of the folder and copies the crates into it. Gives the folder of the program, which is still empty."""
    found = lines_of(names)
    for name in found:
        shutil.copytree(TOP / "crates" / name, folder / "crates" / name, ignore=shutil.ignore_patterns("must-fail"))
    lines = [*found.values(), f"{program}: {' '.join(names)}"]
    (folder / "crates.txt").write_text("\n".join(lines) + "\n")
    own = folder / "crates" / program
    (own / "src").mkdir(parents=True)
    return own


def build(folder, program, names, text, proofs, words):
    """Proves and builds a program of this text, whose functions have these invariants, and runs it once with some words. Gives its file."""
    own = copy(folder, program, names)
    (own / "src" / "main.rt").write_text(text)
    for function, proof in proofs.items():
        (own / "proofs" / function).mkdir(parents=True)
        (own / "proofs" / function / "Invariants.antt").write_text(proof)
    print("proving and building; this takes some minutes", file=sys.stderr)
    subprocess.run(["rt", "run", "--", *words], cwd=own, check=True, stdin=subprocess.DEVNULL, stdout=sys.stderr)
    return own / "out" / program


def build_loop(folder, name, text):
    """Builds a program in C of this text, for a comparison. Gives its file, or None where gcc isn't there."""
    if shutil.which("gcc") is None:
        return None
    (folder / f"{name}.c").write_text(text)
    subprocess.run(["gcc", "-O2", "-o", folder / name, folder / f"{name}.c"], check=True)
    return folder / name
