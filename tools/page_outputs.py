#!/usr/bin/env python3
"""Compares each output that a page of docs/ shows with what the built program writes, and ends with 1 where one differs.

Usage, at the top of the repository: tools/page_outputs.py [--list] [--try] [PAGE ..]   (no page: README.md and docs/*.md)

  MIXED=PATH   the built program; without it crates/mixed/out/mixed, which `rt run` leaves
  --list       lists the marked blocks and runs nothing
  --try        runs the program as `rt try --cases` does, unproved, where none is built: it takes a minute or two

A page marks what it shows by a comment on a line of its own. A block is fenced, and then all that is within, or indented by four
spaces, and then up to the next empty line.

  <!-- run: WORDS -->            the next block is an input, and the one behind it all that `mixed WORDS` writes of it
  <!-- run: WORDS < FILE -->     the next block is all that `mixed WORDS < FILE` writes; FILE is a path from the top of the
                                 repository, or `above` for the input of the mark before
  <!-- piece: WORDS < FILE -->   the next block is some lines of it, one after another
  <!-- file: FILE -->            the next block is the whole file
  <!-- part: FILE -->            the next block is some lines of it, one after another

What a run writes is standard output, or standard error where it writes nothing there.
"""
import os
import pathlib
import re
import subprocess
import sys
import tempfile

TOP = pathlib.Path(__file__).resolve().parent.parent
MARK = re.compile(r"<!-- (run|piece|file|part): ([^<]*?)(?:\s*< (\S+))? -->$")
OF_FILES = ("file", "part")


def blocks(lines):
    """The marks and the blocks of a page, in their order: ('mark', line number, match) or ('block', line number, lines)."""
    at = 0
    while at < len(lines):
        start, line = at + 1, lines[at]
        at += 1
        if MARK.match(line):
            yield "mark", start, MARK.match(line)
        elif line.startswith("```"):
            while at < len(lines) and not lines[at].startswith("```"):
                at += 1
            yield "block", start, lines[start:at]
            at += 1
        elif line.startswith("    "):
            while at < len(lines) and lines[at].startswith("    "):
                at += 1
            yield "block", start, [it[4:] for it in lines[start - 1 : at]]


def shown(page):
    """Each marked block of a page: its place, the kind of its mark, the words, the input and the lines that it shows."""
    found = list(blocks(page.read_text(encoding="utf-8").splitlines()))
    name_of_page = os.path.relpath(page, TOP)
    below = ""
    for at, (what, line, mark) in enumerate(found):
        if what == "block":
            continue
        kind, words, name = mark.groups()
        wanted = 2 if kind == "run" and not name else 1
        behind = [it[2] for it in found[at + 1 : at + 1 + wanted] if it[0] == "block"]
        if len(behind) != wanted:
            raise SystemExit(f"{name_of_page}:{line}: a block is missing")
        if kind in OF_FILES:
            below = (TOP / words).read_text(encoding="utf-8")
        elif wanted == 2:
            below = "".join(it + "\n" for it in behind[0])
        elif name != "above":
            below = (TOP / name).read_text(encoding="utf-8")
        yield f"{name_of_page}:{line}", kind, words.split(), below, behind[-1]


def run(program, cases):
    """What the built program writes for each case."""
    for _, _, words, text, _ in cases:
        done = subprocess.run([program, *words], input=text.encode(), capture_output=True, check=False)
        yield (done.stdout or done.stderr).decode().splitlines()


def tried(cases):
    """The same, by one `rt try --cases`, which prints what each case writes between two lines with its name."""
    with tempfile.TemporaryDirectory() as folder:
        for number, (_, _, words, text, _) in enumerate(cases):
            pathlib.Path(folder, f"{number:03}").write_text(text, encoding="utf-8")
            pathlib.Path(folder, f"{number:03}.args").write_text("".join(it + "\n" for it in words), encoding="utf-8")
        command = ["rt", "try", "--cases", folder]
        done = subprocess.run(command, cwd=TOP / "crates/mixed", stdout=subprocess.PIPE, stderr=subprocess.STDOUT, check=False)
    text = done.stdout.decode()
    for number in range(len(cases)):
        found = re.search(rf"^== {number:03}\n(.*?)^case={number:03} ", text, re.MULTILINE | re.DOTALL)
        if not found:
            raise SystemExit(f"rt try gave no answer: {text[-500:]}")
        yield found[1].splitlines()


def stands(kind, lines, written):
    """Whether a block shows what was written."""
    if kind not in ("piece", "part"):
        return lines == written
    return any(written[at : at + len(lines)] == lines for at in range(len(written)))


def main(arguments):
    pages = [TOP / it for it in arguments if not it.startswith("--")] or [TOP / "README.md", *sorted((TOP / "docs").glob("*.md"))]
    marked = [it for page in pages for it in shown(page)]
    if "--list" in arguments:
        for place, kind, words, _, lines in marked:
            print(f"{place}: {kind} {' '.join(words)}: {len(lines)} lines")
        return 0
    program = os.environ.get("MIXED", TOP / "crates/mixed/out/mixed")
    runs = [it for it in marked if it[1] not in OF_FILES]
    if "--try" not in arguments and not os.path.exists(program):
        print(f"no program {program}: build it, set MIXED, or use --try")
        return 2
    answers = tried(runs) if "--try" in arguments else run(program, runs)
    compared = [(it, it[3].splitlines()) for it in marked if it[1] in OF_FILES] + list(zip(runs, answers))
    wrong = [(it, written) for it, written in compared if not stands(it[1], it[4], written)]
    for (place, kind, words, _, _), written in wrong:
        print(f"{place}: {kind} {' '.join(words)}: not what the page shows, but")
        print("".join(f"    {line}\n" for line in written), end="")
    print(f"{len(compared)} blocks, {len(wrong)} differ")
    return 1 if wrong else 0


if __name__ == "__main__":
    sys.exit(main(sys.argv[1:]))
