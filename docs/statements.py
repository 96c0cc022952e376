#!/usr/bin/env python3
"""Counts what the layers of the proofs still owe, and prints where.

statements.py    run at the top of the repository

First the citations of lemmas of another crate that isn't among that crate's laws. A crate names its files of laws in the
head of its src/lib.rt (or src/main.rt): `//! Laws for the rooms above: proofs/ONE, proofs/TWO.` A citation is a `use` line
of a file of specs/, proofs/ or src/ that brings names from `Rattle.CRATE.proofs.FILE` of another crate of the repository, or a
path `CRATE::proofs::FILE::LEMMA` in the attribute of a function.

Then the statements that stand in two crates or more: the types of the lemmas in proofs/, public or not, and definitions with
their clauses, with the bound variables renamed in the order in which they come. Lemmas inside a `where` aren't looked at, nor
is a type that is only the signature of a definition (`.. → Type 0`, `.. → Bool`).
"""
import collections, pathlib, re, sys

TOP = pathlib.Path("crates")
DECLARED = re.compile(r"^(abbrev |unfoldable )?(?:pub )?([^\s(){}:]+) : (.+)$")
TOKEN = re.compile(r"[(){}\[\],;.]|[^\s(){}\[\],;.]+(?:\.[^\s(){}\[\],;.]+)*")


def crates():
    lines = pathlib.Path("crates.txt").read_text().splitlines()
    return [line.split(":")[0].split()[0] for line in lines if line.strip() and not line.startswith("#")]


def head(crate):
    for root in ("src/lib.rt", "src/main.rt"):
        path = TOP / crate / root
        if path.exists():
            return " ".join(line[3:].strip() for line in path.read_text().splitlines() if line.startswith("//!"))
    return ""


def laws(crate):
    """The files of proofs/ that the crate's head names as laws."""
    text = head(crate)
    found = re.search(r"Laws for the rooms above:(.*?)(?:\.(?:\s|$)|$)", text)
    return set(re.findall(r"proofs/([A-Za-z0-9_/]+)", found.group(1))) if found else set()


def files(crate, folders, suffixes):
    for folder in folders:
        for path in sorted((TOP / crate / folder).rglob("*")):
            if path.suffix in suffixes:
                yield path


def citations(names):
    """Each use of lemmas of another crate's file that is no law: (crate, file) -> [(path, names)]."""
    allowed = {crate: laws(crate) for crate in names}
    found = collections.defaultdict(list)
    line_form = re.compile(r"use Rattle\.(\w+)\.proofs\.([\w.]+?)\.?(?:\{([^}]*)\}|\s|;|$)")
    path_form = re.compile(r"(\w+)::proofs::([\w:]+)::([\w-]+)")
    for crate in names:
        for path in files(crate, ("specs", "proofs", "src"), (".antt", ".rt")):
            for line in path.read_text().splitlines():
                used = line_form.search(line)
                for use in [used] if used else path_form.finditer(line):
                    if use.group(1) == crate or use.group(1) not in allowed:
                        continue
                    file = use.group(2).replace(".", "/").replace("::", "/")
                    if file not in allowed[use.group(1)]:
                        found[use.group(1), file].append((path, (use.group(3) or "").strip()))
    return found


def renamed(type_text):
    """The type with its bound variables renamed v1, v2, .. in the order in which they are bound."""
    tokens = TOKEN.findall(type_text)
    bound = {}

    def bind(name):
        bound.setdefault(name, f"v{len(bound) + 1}")

    for i, token in enumerate(tokens):
        if token in "({":
            j = i + 1
            while j < len(tokens) and re.fullmatch(r"[^\s(){}\[\],;.:→≡]+", tokens[j]) and tokens[j] != ":":
                j += 1
            if j > i + 1 and j < len(tokens) and tokens[j] == ":":
                for name in tokens[i + 1:j]:
                    bind(name)
        if token == "λ":
            j = i + 1
            while j < len(tokens) and tokens[j] not in (".", "("):
                bind(tokens[j].rstrip("."))
                j += 1
    out = []
    for token in tokens:
        first, dot, rest = token.partition(".")
        out.append(bound.get(token) or (bound[first] + dot + rest if first in bound else token))
    return " ".join(out)


def statements(path):
    """The name, the line and the type of each lemma of a file, with the parameters of the module that it stands in."""
    lines = path.read_text().splitlines()
    telescope = ""
    i = 0
    while i < len(lines):
        line = lines[i]
        module = re.match(r"^module \S+ (.*) where$", line)
        if module:
            telescope = module.group(1) + " → "
            i += 1
            continue
        inside = line.startswith("  ") and not line.startswith("   ") and telescope
        if line and not line.startswith((" ", "-")):
            telescope = telescope if inside else ""
        found = DECLARED.match(line[2:] if inside else line)
        if found is None or (line.startswith(" ") and not inside):
            i += 1
            continue
        defined, name, text, start = found.group(1), found.group(2), found.group(3), i + 1
        margin = "    " if inside else "  "
        i += 1
        while i < len(lines) and lines[i].startswith(margin) and not lines[i].lstrip().startswith(("--", "where")):
            text += " " + lines[i].strip()
            i += 1
        if defined:
            while i < len(lines) and lines[i].strip().startswith(name + " "):
                text += " | " + re.sub(rf"(?<!\S){re.escape(name)}(?!\S)", "self", lines[i].strip())
                i += 1
        if not text.startswith("goal.") and name not in ("use", "record", "module"):
            yield name, start, (telescope if inside else "") + text


def repeated(names):
    """Each statement that stands in two crates or more: text -> [(crate, path, line, name)]."""
    places = collections.defaultdict(list)
    for crate in names:
        for path in files(crate, ("proofs",), (".antt",)):
            for name, line, text in statements(path):
                signature = " | " not in text and text.endswith(("→ Type 0", "→ Bool"))
                if ("→" in text or "≡" in text) and not signature:
                    places[renamed(text)].append((crate, path, line, name))
    return {text: at for text, at in places.items() if len({crate for crate, *_ in at}) > 1}


def main():
    names = crates()
    cited = citations(names)
    count = sum(len(uses) for uses in cited.values())
    print(f"{count} citations of lemmas of another crate that are no laws, of {len(cited)} files")
    for (crate, file), uses in sorted(cited.items()):
        print(f"  {crate}/proofs/{file}: {len(uses)}")
        for path, what in uses:
            print(f"    {path}: {what}")
    twice = repeated(names)
    print(f"{len(twice)} statements that stand in two crates or more")
    for text, at in sorted(twice.items(), key=lambda entry: (-len(entry[1]), entry[0])):
        print(f"  {text[:160]}")
        for crate, path, line, name in at:
            print(f"    {path}:{line} {name}")
    sys.exit(1 if count or twice else 0)


main()
