#!/usr/bin/env python3
"""Makes docs/CALLS.md, the list of all public calls of all crates, from their sources.

calls.py           writes the file
calls.py --check   writes nothing; the status is 1 where the file isn't what the sources say

A call is public where it can be named from outside its crate: a `pub fn` that lib.rt lends by `pub use` or that stands in a `pub mod`,
a `pub fn` of a type that is lent so, or a call of a trait that is. What is said of a call is read off its signature and its clauses;
nothing is judged here but which clauses speak of a value that was lent to be changed.
"""
import dataclasses, functools, pathlib, re, sys

TOP = pathlib.Path(__file__).resolve().parent.parent
PAGE = TOP / "docs/CALLS.md"
HIDDEN = r'//[^\n]*|"(?:\\.|[^"\\])*"|\'(?:\\[^\']*|[^\\\'])\''
# a counter of steps that stands in contracts alone
COUNTER = "Steps"
HEAD = """# Public calls

Made by `docs/calls.py` from the sources: each public call of each crate, with its signature. Re-exports of another crate's calls stand
with that crate. Calls that a type has by a trait are the trait's, with the trait's clauses.

- *Memory*: `alloc` where the call is given an allocator; `kept` where it has none and may be out of memory all the same, since a value has
  kept one; else none. A call without memory doesn't answer out of memory.
- *Clauses*: the names of its `ensures`; `·` is one without a name.
- *A refusal leaves*: what stands after a call that answers `Err`. A call that is lent nothing to change leaves all as it was, and what it
  began is dropped. Of each value that is lent to be changed the clauses are named that speak of its new value after an `Err`, and not after an
  `Ok` alone: `self: refused`. A value that is taken is given up. Where a call has no `Err`, the clauses are those on the new value
  after each answer. A call whose clause says that it is `Ok` has no refusal. The counter of steps is left out.
- A *law* answers nothing and is lent nothing to change: what it gives is its clauses.

That a call returns, and that no index, sum or division goes wrong, is what the prover asks of every body: no clause says it.
"""


@dataclasses.dataclass
class Call:
    crate: str
    owner: str
    name: str
    signature: str
    parameters: list
    result: str
    clauses: list

    @property
    def full_name(self):
        return f"{self.owner}::{self.name}" if self.owner else self.name

    @property
    def is_law(self):
        """It answers nothing and is lent nothing to change: all that it gives is its clauses."""
        return not self.result and not any("&mut" in p or re.search(r"&'\w+ mut", p) for p in self.parameters)

    @property
    def refuses(self):
        """It may answer `Err`: no clause says that it never does."""
        return self.result.startswith("Result<") and not any(c[0] == "ensures" and c[2].strip() == "IsOk result" for c in self.clauses)


# Reading of sources

def masked(text):
    """A source with blanks in place of comments, strings and characters, so that each brace is one."""
    return re.sub(HIDDEN, lambda m: re.sub(r"[^\n]", " ", m.group()), text)


def end_of_braces(text, begin):
    """The place after the brace that closes the one at a place."""
    depth = 0
    for place in range(begin, len(text)):
        depth += {"{": 1, "}": -1}.get(text[place], 0)
        if depth == 0:
            return place + 1
    sys.exit("a brace isn't closed")


def parts_of(text, separator=","):
    """The parts of a text between separators that stand in no brackets."""
    parts, depth = [""], 0
    for place, sign in enumerate(text):
        arrow = sign == ">" and text[place - 1:place] in ("-", "=")
        depth += 0 if arrow else {"(": 1, "[": 1, "<": 1, ")": -1, "]": -1, ">": -1}.get(sign, 0)
        if sign == separator and depth == 0:
            parts.append("")
        else:
            parts[-1] += sign
    return [part.strip() for part in parts if part.strip()]


def clauses_at(text, place):
    """The clauses that begin at a place: kind, name and statement of each; and the place after them."""
    found = []
    while match := re.compile(r"\s*(requires|ensures)\s+(\w*)\s*(?=\{)").match(text, place):
        place = end_of_braces(text, match.end())
        found.append((match.group(1), match.group(2), text[match.end() + 1:place - 1]))
    return found, place


def call_at(crate, owner, text, begin):
    """The call whose `fn` stands at a place, and the place after it."""
    name = re.compile(r"fn\s+(\w+)").match(text, begin).group(1)
    ends = re.compile(r"\s(requires|ensures)\s|\{|;").finditer(text, begin)
    clause = next(m for m in ends if text.count("[", begin, m.start()) == text.count("]", begin, m.start()))
    head = " ".join(text[begin:clause.start()].split())
    head = head.replace("( ", "(").replace(", )", ")").replace(",)", ")")
    clauses, place = clauses_at(text, clause.start())
    if re.compile(r"\s*\{").match(text, place):
        place = end_of_braces(text, text.index("{", place))
    opening = re.search(r"fn \w+(<[^(]*>)?\(", head).end()
    depth, closing = 1, opening
    while depth:
        depth += {"(": 1, ")": -1}.get(head[closing], 0)
        closing += 1
    result = head[closing:].strip().removeprefix("->").strip()
    return Call(crate, owner, name, head, parts_of(head[opening:closing - 1]), result, clauses), place


def calls_of(crate, owner, text, public):
    """The calls of a piece of text, its braces passed over: those behind `pub`, or all."""
    found, place = [], 0
    pattern = re.compile(r"(\bpub\s+)?(\bconst\s+)?\bfn\s+\w+|\{")
    while match := pattern.search(text, place):
        if match.group() == "{":
            place = end_of_braces(text, match.start())
            continue
        call, place = call_at(crate, owner, text, text.index("fn", match.start() + len(match.group(1) or "")))
        if match.group(1) or not public:
            found.append(call)
    return found


def blocks_of(text, pattern):
    """The heads and the bodies of the outer blocks that match a pattern."""
    for match in re.finditer(pattern, text):
        brace = text.index("{", match.end() - 1)
        yield match, text[brace + 1:end_of_braces(text, brace) - 1]


class Crate:
    """The sources of a crate, and the names that it lends."""

    def __init__(self, folder):
        self.name = folder.name
        self.source = folder / "src"
        self.modules = {}
        root = self.source / "lib.rt"
        self.has_calls = root.exists()
        if self.has_calls:
            self.read("", root, True)

    def read(self, module, path, is_public):
        """Reads a module and the modules below it; tests aren't read."""
        text = masked(path.read_text())
        self.modules[module] = (text, is_public)
        for match in re.finditer(r"(#\[cfg\(test\)\]\s*)?^(pub )?mod (\w+);", text, re.M):
            test, public, name = match.groups()
            if not test:
                below = path.parent if path.name == "lib.rt" else path.with_suffix("")
                self.read(name, below / f"{name}.rt", is_public and bool(public))

    def lent(self):
        """The names that lib.rt or a public module lends of this crate's own modules."""
        names = set()
        for text, is_public in self.modules.values():
            if not is_public:
                continue
            for module, listed in re.findall(r"^pub use (?:crate::|self::)?([\w:]+)::(\{[^}]*\}|\w+);", text, re.M):
                if module.split("::")[0] in self.modules:
                    names.update(re.findall(r"\w+", listed))
        return names

    def calls(self):
        lent, found = self.lent(), []
        for module, (text, is_public) in self.modules.items():
            types = set(re.findall(r"^pub (?:struct|enum|trait) (\w+)", text, re.M))
            if not is_public:
                types &= lent
            found += [c for c in calls_of(self.name, "", text, True) if is_public or c.name in lent]
            self.types = getattr(self, "types", set()) | types
        for text, _ in self.modules.values():
            for match, body in blocks_of(text, r"(?m)^impl(?:<[^\n{]*?>)? (\w+)(?:<[^\n{]*>)?\s*(?:where[^{]*)?\{"):
                if match.group(1) in self.types:
                    found += calls_of(self.name, match.group(1), body, True)
            for match, body in blocks_of(text, r"(?m)^pub trait (\w+)[^{;]*\{"):
                if match.group(1) in self.types:
                    found += calls_of(self.name, match.group(1), body, False)
        return found


# What is said of a call

@functools.cache
def memory_types():
    """The names of the types that may say out of memory: the allocator's error, and each enum that has one."""
    text = "\n".join(masked(path.read_text()) for path in sorted((TOP / "crates").glob("*/src/**/*.rt")))
    enums = {match.group(1): body for match, body in blocks_of(text, r"(?m)^(?:pub )?enum (\w+)[^{;]*\{")}
    names, wider = set(), {"OutOfMemory", "AllocError"}
    while names != wider:
        names = wider
        wider = names | {name for name, body in enums.items() if names & set(re.findall(r"\w+", body))}
    return names


def memory(call):
    if any(re.search(r"\balloc: Global$", p) for p in call.parameters):
        return "alloc"
    error = parts_of(call.result[len("Result<"):-1])[-1] if call.result.startswith("Result<") else ""
    return "kept" if memory_types() & set(re.findall(r"\w+", error)) else ""


def changed(call):
    """The names of the parameters that are lent to be changed, but for the counter of steps."""
    names = []
    for parameter in call.parameters:
        if re.match(r"&(?:'\w+ )?mut self$", parameter):
            names.append("self")
        elif match := re.match(r"(?:mut )?(\w+): &(?:'\w+ )?mut \[?(\w+)", parameter):
            if match.group(2) != COUNTER:
                names.append(match.group(1))
    return names


def clause_name(clause):
    return f"`{clause[1]}`" if clause[1] else "·"


def speaks_after_refusals(statement):
    """A statement that isn't about an `Ok` alone."""
    return not re.match(r"\s*\(?(IfOk|OnOk|IsOk|IfSome|IsOkOf)\b", statement)


def after(call):
    """What stands after a call that refuses, and whether a clause is missing that says it."""
    told, missing = [], False
    for name in changed(call) if call.refuses or not call.result.startswith("Result<") else []:
        new = re.compile(rf"\b{name}\.new\b")
        names = [clause_name(c) for c in call.clauses
                 if c[0] == "ensures" and new.search(c[2]) and (not call.refuses or speaks_after_refusals(c[2]))]
        told.append(f"{name}: {', '.join(names) or 'no clause'}")
        missing = missing or not names
    if call.refuses and {"self", "mut self"}.intersection(call.parameters):
        told.append("self is given up")
    if not told:
        return ("all as it was" if call.refuses else ""), False
    return "; ".join(told), missing


# The page

def crate_names():
    """The crates, each after those that it uses."""
    uses = {}
    for line in (TOP / "crates.txt").read_text().splitlines():
        if line and not line.startswith("#"):
            name, listed = line.split(":")
            uses[name] = listed.split()
    ordered = []

    def add(name):
        for below in uses.get(name, []):
            add(below)
        if name in uses and name not in ordered:
            ordered.append(name)

    for name in uses:
        add(name)
    return ordered


def section(crate, calls):
    lines = [f"## {crate}", ""]
    laws = [c for c in calls if c.is_law]
    calls = [c for c in calls if not c.is_law]
    if calls:
        lines += ["| Call | Memory | Clauses | A refusal leaves |", "|---|---|---|---|"]
    for call in calls:
        owner = f"{call.owner}: " if call.owner else ""
        clauses = ", ".join(clause_name(c) for c in call.clauses if c[0] == "ensures")
        lines.append(f"| {owner}`{call.signature}` | {memory(call)} | {clauses} | {after(call)[0]} |".replace("||", r"\|\|"))
    if laws:
        lines += [""] * bool(calls) + ["Laws: " + ", ".join(f"`{c.full_name}`" for c in laws) + "."]
    return lines + [""]


def page():
    found = {name: Crate(TOP / "crates" / name).calls() for name in crate_names() if (TOP / "crates" / name / "src/lib.rt").exists()}
    every = [c for calls in found.values() for c in calls if not c.is_law]
    refusing = [c for c in every if c.refuses]
    untold = [f"{c.crate} `{c.full_name}`" for c in every if after(c)[1]]
    lines = [HEAD, f"There are {len(every)} calls, of which {len(refusing)} answer `Err`, and {sum(c.is_law for calls in found.values() for c in calls)} laws.",
             "Calls with a value of which no clause says what a refusal, or any answer, leaves, so that it is by test alone: "
             + (", ".join(untold) or "none") + ".", ""]
    for name, calls in found.items():
        if calls:
            lines += section(name, calls)
    return "\n".join(lines).rstrip() + "\n"


def main():
    text = page()
    if sys.argv[1:] == ["--check"]:
        if not PAGE.exists() or PAGE.read_text() != text:
            sys.exit(f"{PAGE.relative_to(TOP)} isn't what the sources say: docs/calls.py writes it")
        return
    PAGE.write_text(text)


if __name__ == "__main__":
    main()
