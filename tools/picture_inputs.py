#!/usr/bin/env python3
"""Writes crates/picture_tables/src/pictures.rt: the certificates and the pictures of docs/pictures/ as constants, since a test reads
no files, and certificates of some sizes with the pictures that tools/draw_pictures.py draws of them.

Usage, at the top of the repository: tools/picture_inputs.py [--check]   (--check: only whether the file is that, however rt fmt has
broken its lines)
"""
import pathlib
import sys

from draw_pictures import draw, made
from example_inputs import literal
from generated import deliver

SIZES = [6, 63, 200]
HEAD = """//! The certificates and the pictures of docs/pictures/, and of certificates of some sizes. Written by tools/picture_inputs.py.

/// Each certificate, and its picture.
pub const PICTURES: [(&str, &str); %d] = [
"""


def main():
    top = pathlib.Path(__file__).resolve().parent.parent
    files = sorted((top / "docs/pictures").glob("*.svg"))
    pairs = [(it.stem, it.with_suffix(".cert").read_text(encoding="utf-8"), it.read_text(encoding="utf-8")) for it in files]
    pairs += [(f"{size} columns", made(size), draw(made(size))) for size in SIZES]
    rows = [
        f"    // {name}\n    (\n        {literal(certificate)},\n        {literal(picture)},\n    ),\n"
        for name, certificate, picture in pairs
    ]
    text = HEAD % len(rows) + "".join(rows) + "];\n"
    to = top / "crates/picture_tables/src/pictures.rt"
    return deliver(text, to, "the files of docs/pictures/, and pictures of some sizes")


if __name__ == "__main__":
    sys.exit(main())
