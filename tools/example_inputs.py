#!/usr/bin/env python3
"""Writes crates/check_tables/src/inputs.rt: the files of examples/ as constants, since a test reads no files.

Usage, at the top of the repository: tools/example_inputs.py [--check]   (--check: only whether the file is that, however rt fmt
has broken its lines)
"""
import pathlib
import sys

from generated import deliver

KINDS = {".txt": "matrix", ".cir": "netlist", ".toml": "flowsheet"}
HEAD = """//! The files of examples/, each with its kind. Written by tools/example_inputs.py.

/// The kind and the text of each.
pub const INPUTS: [(&str, &str); %d] = [
"""


def literal(text):
    for old, new in [("\\", "\\\\"), ('"', '\\"'), ("\n", "\\n"), ("\r", "\\r"), ("\t", "\\t")]:
        text = text.replace(old, new)
    return f'"{text}"'


def main():
    top = pathlib.Path(__file__).resolve().parent.parent
    files = sorted(it for it in (top / "examples").iterdir() if it.suffix in KINDS)
    rows = [
        f"    // {it.name}\n    (\n        {literal(KINDS[it.suffix])},\n        {literal(it.read_text(encoding='utf-8'))},\n    ),\n"
        for it in files
    ]
    text = HEAD % len(rows) + "".join(rows) + "];\n"
    to = top / "crates/check_tables/src/inputs.rt"
    return deliver(text, to, "the files of examples/")


if __name__ == "__main__":
    sys.exit(main())
