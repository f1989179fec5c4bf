#!/usr/bin/env python3
"""Lists what departs from the house style (CONTRIBUTING.md), one line each: FILE:LINE: what. Ends with the counts, and with 1 where
something does.

Usage, at the top of the repository: tools/house_style.py [CRATE ..]   (no crate: all)

It looks for four things, and judges nothing else:
  head     a file of src/ begins with `//!` and its subject, a file of specs/ or proofs/*.antt with `--` and its subject
  private  a private function has its comment as `//`, a public one as `///`
  long     a clause of src/, or a line of specs/, is at most 120 characters wide, and a line of proofs/ 160
  table    docs/architecture.md has the groups of crates.txt, with the same crates in the same order; docs/claims.md names each crate
"""
import collections
import pathlib
import re
import sys

from crate_groups import groups_of

WIDTH = 120
PROOF_WIDTH = 160
CLAUSE = re.compile(r"\s*(requires|ensures|ghost (?!use))")
FUNCTION = re.compile(r"\s*(pub(\([a-z]+\))? )?(unsafe )?fn \w+")


def heads(path, lines):
    """Whether the file says first what it is about. A list of modules needs no subject."""
    if path.name == "Lib.antt":
        return
    mark = "//!" if path.suffix == ".rt" else "--"
    if lines and not lines[0].startswith(mark):
        yield 1, "head", f"begins with no `{mark}` and a subject"


def comments(path, lines):
    """Functions of src/ whose comment is of the other kind."""
    in_impl_of_trait = False
    for number, line in enumerate(lines, 1):
        if re.match(r"(impl|pub trait|trait)\b", line):
            in_impl_of_trait = " for " in line or "trait" in line
        found = FUNCTION.match(line)
        if not found or in_impl_of_trait:
            continue
        before = number - 2
        while before >= 0 and lines[before].lstrip().startswith("#["):
            before -= 1
        above = lines[before].lstrip() if before >= 0 else ""
        if found.group(1) == "pub " and above.startswith("// "):
            yield number, "private", "a public function with a `//` comment"
        if not found.group(1) and above.startswith("///"):
            yield number, "private", "a private function with a `///` comment"


def clause_lines(lines):
    """The numbers of the lines on which a clause of src/ stands, with those on which it goes on."""
    depth = 0
    for number, line in enumerate(lines, 1):
        if depth > 0 or CLAUSE.match(line):
            depth += line.count("{") - line.count("}")
            yield number


def widths(path, lines, part):
    """Lines that are too wide, where they are to be read: clauses, definitions, and proofs. Imports may be long."""
    clauses = set(clause_lines(lines)) if part == "src" else set()
    width = PROOF_WIDTH if part == "proofs" else WIDTH
    for number, line in enumerate(lines, 1):
        if len(line) <= width or line.startswith(("use ", "pub use ", "ghost use ")):
            continue
        if part != "src" or number in clauses:
            yield number, "long", f"{len(line)} characters"


def departures(crate):
    for part in ("src", "specs", "proofs"):
        for path in sorted((crate / part).glob("**/*")):
            if path.suffix not in (".rt", ".antt"):
                continue
            lines = path.read_text(encoding="utf-8").splitlines()
            found = [widths(path, lines, part)]
            if part != "proofs" or path.parent.name == "proofs":
                found.append(heads(path, lines))
            if part == "src":
                found.append(comments(path, lines))
            for each in found:
                yield from ((path, *what) for what in each)


def groups_of_page(text):
    """The groups of docs/architecture.md in their order, each with the crates of its table in theirs."""
    section = text.partition("## Crates\n")[2].partition("\n## ")[0]
    parts = [part.partition("\n") for part in section.split("\n### ")[1:]]
    return {name.lower(): re.findall(r"^\| `(\w+)` \|", table, re.MULTILINE) for name, _, table in parts}


def tables():
    """Where the groups of docs/architecture.md are not those of crates.txt, and crates whose claims docs/claims.md leaves out."""
    groups = groups_of(pathlib.Path("crates.txt").read_text(encoding="utf-8"))
    page = pathlib.Path("docs/architecture.md")
    shown = groups_of_page(page.read_text(encoding="utf-8"))
    if list(groups) != list(shown):
        yield page, 1, "table", "the groups are not those of crates.txt, in that order"
    for name, crates in groups.items():
        if list(crates) != shown.get(name, []):
            yield page, 1, "table", f"the crates of '{name}' are not those of crates.txt, in that order"
    claims = pathlib.Path("docs/claims.md")
    rows = re.findall(r"^\| (`\w+`(?:, `\w+`)*) \|", claims.read_text(encoding="utf-8"), re.MULTILINE)
    named = {name for row in rows for name in re.findall(r"\w+", row)}
    wanted = (crate for crates in groups.values() for crate in crates if not is_program(crate))
    yield from ((claims, 1, "table", f"has no crate `{name}`") for name in wanted if name not in named)


def is_program(name):
    return pathlib.Path("crates", name, "src", "main.rt").exists()


def main(names):
    top = pathlib.Path("crates")
    crates = [top / name for name in names] or sorted(top.iterdir())
    counts = collections.Counter()
    found = [each for crate in crates for each in departures(crate)]
    if not names:
        found += tables()
    for path, number, kind, what in found:
        counts[kind] += 1
        print(f"{path}:{number}: {what}")
    print(" ".join(f"{kind}={counts[kind]}" for kind in ("head", "private", "long", "table")))
    return int(bool(found))


if __name__ == "__main__":
    sys.exit(main(sys.argv[1:]))
