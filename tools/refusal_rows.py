#!/usr/bin/env python3
"""Writes crates/refusal_tables/src/rows.rt: the rows of docs/refusals.md that have an input, since a test reads no files.

Usage, at the top of the repository: tools/refusal_rows.py [--check]   (--check: only whether the file has the rows of the page,
however rt fmt has broken its lines)

A comment `<!-- rows: STATUS WORDS -->` above a table says that each of its rows is a run with these words that ends with this
status. The first cell of a row has the input, the second the message in code type, without the `mixed: ` before it, or `none`.

  input    each piece in code type is a line, parted by `<br>`; `nothing` is the empty input. In a piece, \\| is a bar, \\r a carriage
           return and \\xNN a byte. 'for n from A to B' behind a piece: it stands there once for each n, with n for `{n}`
  behind   `<!-- rows: STATUS WORDS, behind the block -->`: the lines of the last fenced block stand before the input
  in       `<!-- rows: STATUS WORDS, in the block -->`: the input is the last fenced block with some lines changed. The cell has
           `OLD` to `NEW` or `OLD` left out for each; OLD is a whole line that the block has once
  words    `<!-- rows: STATUS words -->`: the first cell has the words behind `mixed`, and the message is the first line of
           standard error as it stands

The rows stand in constants ROWS_1, ROWS_2 and so on, each with a test of its own in tests.rt, which the script asks for.
"""
import pathlib
import re
import sys

from generated import deliver

HEAD = "//! The rows of docs/refusals.md. Written by tools/refusal_rows.py.\n"
MARK = re.compile(r"<!-- rows: (\d) (.*?)(?:, (behind|in) the block)? -->$")
PIECE = re.compile(r"`([^`]*)`(?: for n from (\d+) to (\d+))?$")
AT_MOST = 24  # rows of one constant: the proof of a test runs out of steps where it names one of some hundred
CHANGE = re.compile(r"`([^`]*)` (?:to `([^`]*)`|left out)$")


def cells(line):
    return [it.strip().replace("\\|", "|") for it in re.split(r"(?<!\\)\|", line.strip())[1:-1]]


def unmarked(piece):
    """The bytes of a piece of an input."""
    text = piece.encode("utf-8").replace(b"\\r", b"\r")
    return re.sub(rb"\\x([0-9a-f]{2})", lambda it: bytes([int(it[1], 16)]), text)


def matched(pattern, text, cell):
    found = pattern.match(text)
    if not found:
        raise SystemExit(f"refusals.md: not read: {cell}")
    return found


def pieces(cell):
    """The lines of an input, each with the first and the last n, or 1 and 1 where it stands once."""
    if cell == "nothing":
        return []
    found = [matched(PIECE, it, cell) for it in cell.split("<br>")]
    return [(unmarked(it[1]) + b"\n", int(it[2] or 1), int(it[3] or 1)) for it in found]


def changed(block, cell):
    """The block with the lines of the cell changed."""
    lines = list(block)
    for it in cell.split("<br>"):
        old, new = matched(CHANGE, it, cell).groups()
        if lines.count(old) != 1:
            raise SystemExit(f"refusals.md: the block has not once: {old}")
        at = lines.index(old)
        lines[at : at + 1] = [] if new is None else [new]
    return [(unmarked(it) + b"\n", 1, 1) for it in lines]


def rows(page):
    """Each row as its section, words, lines, status and message."""
    section, mark, block, fenced = "", None, [], False
    for line in page.read_text(encoding="utf-8").splitlines():
        if line.startswith("```"):
            fenced = not fenced
            block = [] if fenced else block
        elif fenced:
            block.append(line)
        elif line.startswith("## "):
            section, mark = line[3:], None
        elif line.startswith("<!-- rows"):
            mark = matched(MARK, line, line)
        elif mark and line.startswith("|") and not re.match(r"\| (input|changed|words) \||\|---", line):
            status, words, way = mark.groups()
            first, told = cells(line)[:2]
            told = "" if told == "none" else told.strip("`")
            if words == "words":
                yield section, "" if first == "nothing" else first.strip("`"), None, status, told
                continue
            before = [(unmarked(it) + b"\n", 1, 1) for it in block] if way == "behind" else []
            yield section, words, changed(block, first) if way == "in" else before + pieces(first), status, told
        elif mark and line and not line.startswith("|"):
            mark = None


def literal(text):
    """A byte string of Rust, or a string where the text is one of str."""
    signs = {10: "\\n", 13: "\\r", 34: '\\"', 92: "\\\\"}
    data = text if isinstance(text, bytes) else text.encode("ascii")
    shown = "".join(signs.get(it) or (chr(it) if 32 <= it < 127 else f"\\x{it:02x}") for it in data)
    return ("b" if isinstance(text, bytes) else "") + f'"{shown}"'


def joined(lines):
    return b"".join(line for line, _, _ in lines)


def table(comment, name, kind, found):
    body = "".join(f"    ({', '.join(it)}),\n" for it in found)
    return f"\n/// {comment}\npub const {name}: [{kind}; {len(found)}] = [\n{body}];\n"


def written(found):
    """The text of rows.rt."""
    told, once, often = [], [], []
    for _, words, lines, status, message in found:
        if lines is None:
            told.append((literal(words), status, literal(message)))
            continue
        repeated = [at for at, (_, first, last) in enumerate(lines) if first != last]
        if not repeated:
            once.append((literal(words), literal(joined(lines)), status, literal(message)))
            continue
        at = repeated[0]
        if len(repeated) > 1 or lines[at][1] != 1:
            raise SystemExit(f"refusals.md: one line may be repeated, from 1: {lines}")
        parts = [joined(part).decode() for part in (lines[:at], lines[at : at + 1], lines[at + 1 :])]
        often.append((literal(words), *map(literal, parts), str(lines[at][2]), status, literal(message)))
    parts = [once[at : at + AT_MOST] for at in range(0, len(once), AT_MOST)]
    return (
        HEAD
        + "\n/// The words, the input, the status, and the message.\npub type Row = (&'static str, &'static [u8], u8, &'static str);\n"
        + "".join(table(f"Rows, part {at} of {len(parts)}.", f"ROWS_{at}", "Row", it) for at, it in enumerate(parts, 1))
        + table(
            "The words; of the input what stands before a line, the line, and what stands behind it; how often the line stands; the\n"
            "/// status, and the message.",
            "REPEATED",
            "(&str, &str, &str, &str, u32, u8, &str)",
            often,
        )
        + table("The words, the status, and the first line that is told.", "WORDS", "(&str, u8, &str)", told)
    )


def main():
    top = pathlib.Path(__file__).resolve().parent.parent
    text = written(list(rows(top / "docs/refusals.md")))
    to = top / "crates/refusal_tables/src/rows.rt"
    tests = to.with_name("tests.rt").read_text(encoding="utf-8")
    for name in re.findall(r"pub const (\w+)", text):
        if f"&{name})" not in tests and f"&{name} " not in tests:
            print(f"tests.rt has no test of {name}")
            return 1
    return deliver(text, to, "the rows of refusals.md")


if __name__ == "__main__":
    sys.exit(main())
