#!/usr/bin/env python3
"""Writes the tables of docs/reading-list.md: the files of specs/ behind a file that is named there, each behind those that it uses.

Usage, at the top of the repository: tools/reading_list.py [--check]   (--check: only whether the page has these tables)

A comment `<!-- behind: FILE .. -->` on a line of its own asks for a table of the files behind those that it names, with them, but for files
of tables above it.
"""
import pathlib
import re
import sys

TOP = pathlib.Path(__file__).resolve().parent.parent
PAGE = TOP / "docs/reading-list.md"
USE = re.compile(r"^(?:pub )?use Rattle\.(\w+)\.specs\.([\w.]+?)(?:\.\{[^}]*\})?(?: as \w+)?$", re.M)
MARK = re.compile(r"^<!-- behind: (.*) -->\n(?:\n(?:\|.*\n)+)?", re.M)


def used(file):
    """The files of this repository that the file names, in its order."""
    for crate, path in USE.findall(file.read_text(encoding="utf-8")):
        other = TOP / "crates" / crate / "specs" / (path.replace(".", "/") + ".antt")
        if other.exists():
            yield other


def behind(file, found):
    """Puts the file last, behind all that it uses."""
    if file not in found:
        for other in used(file):
            behind(other, found)
        found.append(file)


def said(file):
    """What the first comment of the file says first."""
    lines = []
    for line in file.read_text(encoding="utf-8").splitlines():
        if not line.startswith("--"):
            break
        lines.append(line.removeprefix("--").strip())
    return re.split(r"(?<=\.)\s(?=[A-Z])", " ".join(lines))[0].replace("|", "\\|")


def main():
    found = []

    def table(mark):
        start = len(found)
        for name in mark[1].split():
            behind(TOP / name, found)
        rows = [f"| {it.relative_to(TOP / 'crates')} | {len(it.read_text().splitlines())} | {said(it)} |\n" for it in found[start:]]
        return f"<!-- behind: {mark[1]} -->\n\n| file | lines | what it says |\n|---|---|---|\n" + "".join(rows)

    old = PAGE.read_text(encoding="utf-8")
    new = MARK.sub(table, old)
    if "--check" not in sys.argv[1:]:
        PAGE.write_text(new, encoding="utf-8")
        return 0
    print("docs/reading-list.md has the files behind the headline" if new == old else f"run {sys.argv[0]}")
    return 0 if new == old else 1


sys.exit(main())
