#!/usr/bin/env python3
"""Lists the names of specs/ that stand in more than one crate, one line each, and ends with the count: with 1 where a name does so that
tools/shared_names.txt does not allow, or where a name stands there that does not.

Usage, at the top of the repository: tools/shared_names.py
"""
import collections
import pathlib
import re
import sys

DEFINITION = re.compile(r"^(?:abbrev pub|pub (?:record|data|abbrev)|unfoldable pub)\s+(\S+)", re.M)
ALLOWED = pathlib.Path(__file__).with_name("shared_names.txt")


def defined():
    """The crates in whose specs/ a name is defined, by name."""
    names = collections.defaultdict(set)
    for path in pathlib.Path("crates").glob("*/specs/**/*.antt"):
        for name in DEFINITION.findall(path.read_text()):
            names[name].add(path.parts[1])
    return names


def allowed():
    """The crates in which a name may stand, by name."""
    names = {}
    for line in ALLOWED.read_text().splitlines():
        if line and not line.startswith("#"):
            name, crates = line.split(":")
            names[name] = set(crates.split())
    return names


def main():
    shared = {name: crates for name, crates in defined().items() if len(crates) > 1}
    may = allowed()
    wrong = 0
    for name, crates in sorted(shared.items()):
        if not crates <= may.get(name, set()):
            print(f"{name}: stands in {', '.join(sorted(crates))}")
            wrong += 1
    for name in sorted(may.keys() - shared.keys()):
        print(f"{name}: may stand in two crates, and does not")
        wrong += 1
    print(f"{len(shared)} names stand in more than one crate, {wrong} of them are not as the list says")
    return 1 if wrong else 0


sys.exit(main())
