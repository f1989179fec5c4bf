#!/usr/bin/env python3
"""Tests that each page and each file that a page links to, or names by its path, is there, and ends with 1 where one is not.

Usage, at the top of the repository: tools/page_links.py

Read are README.md, CONTRIBUTING.md, examples/README.md and docs/*.md. A link is `[..](PATH)`, from the page's own folder; a name is a word
that ends in .md, from the page's folder, from docs/ or from the top. docs/README.md has to link each page of docs/.
"""
import pathlib
import re
import sys

TOP = pathlib.Path(__file__).resolve().parent.parent
DOCS = TOP / "docs"
LINK = re.compile(r"\]\(([^)#\s]+)(?:#[^)]*)?\)")
NAME = re.compile(r"(?<![\w/.-])((?:[\w-]+/)*[\w-]+\.md)\b")


def faults(page):
    text = page.read_text(encoding="utf-8")
    for path in LINK.findall(text):
        if "://" not in path and not (page.parent / path).exists():
            yield f"no {path}, which it links"
    for name in NAME.findall(text):
        if not any((folder / name).exists() for folder in (page.parent, DOCS, TOP)):
            yield f"no {name}, which it names"


def main():
    pages = [TOP / "README.md", TOP / "CONTRIBUTING.md", TOP / "examples" / "README.md", *sorted(DOCS.glob("*.md"))]
    found = [f"{page.relative_to(TOP)}: {fault}" for page in pages for fault in faults(page)]
    linked = set(LINK.findall((DOCS / "README.md").read_text(encoding="utf-8")))
    found += [
        f"docs/README.md: no link to {page.name}" for page in sorted(DOCS.glob("*.md")) if page.name not in linked | {"README.md"}
    ]
    print("\n".join(found) or f"{len(pages)} pages, each link and each page that is named is there")
    return 1 if found else 0


sys.exit(main())
