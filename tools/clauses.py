#!/usr/bin/env python3
"""Writes the table of docs/clauses.md: the clauses of each call that a crate offers, by name.

Usage, at the top of the repository: tools/clauses.py [--check]   (--check: only whether the table is that of the sources)

What stands above the table in docs/clauses.md is left as it is. A call is what a crate hands to others: a function in a `pub mod`
or in a `pub use` of src/lib.rt, a function of a type that stands there, and what a trait there asks of its implementors.
"""
import pathlib
import re
import sys

TO = "docs/clauses.md"
MARK = "| crate | call | clauses |\n|---|---|---|\n"
FUNCTION = re.compile(r"( *)(pub )?(?:const )?fn (\w+)")
CLAUSE = re.compile(r"\s*(requires|ensures) (?:(\w+) )?\{(.*)")
NO_NAME = "one"


def without_generics(text):
    """The text without what stands in angle brackets."""
    while re.search(r"<[^<>]*>", text):
        text = re.sub(r"<[^<>]*>", "", text)
    return text


def owner_of(line):
    """What a line that opens a block owns: a type or a trait, and whether all its functions are offered; None for an impl of a trait."""
    words = without_generics(line.replace("->", "")).split()
    if words[0] == "impl":
        return (words[1], False) if "for" not in words else None
    return (words[words.index("trait") + 1].rstrip(":"), True)


def clauses_at(lines, start):
    """The premises and the promises of the function that begins at this line, by name."""
    indent = FUNCTION.match(lines[start]).group(1)
    found = {"requires": [], "ensures": []}
    for number in range(start, len(lines)):
        line = lines[number]
        clause = CLAUSE.match(line)
        if clause:
            kind, name, rest = clause.groups()
            alone = re.fullmatch(r" (\w+) \};?", rest)
            found[kind].append(name or (alone.group(1) if alone else NO_NAME))
        opens = line.startswith(indent + "{") or (line.rstrip().endswith("{") and not any(found.values()))
        if (opens and not clause) or line.startswith("}") or (number > start and FUNCTION.match(line)):
            break
    return found


def functions_of(path):
    """Owner, name, and clauses of each function of the file that is not private to it. The owner is None beside all blocks."""
    lines = path.read_text(encoding="utf-8").splitlines()
    owner, inside, skips = None, False, False
    for number, line in enumerate(lines):
        if re.match(r"(pub )?(impl|trait)\b", line):
            owner, inside, skips = owner_of(line), True, owner_of(line) is None
        elif re.match(r"(pub )?mod \w+ \{", line):
            inside, skips = True, True
        if line.startswith("}"):
            owner, inside, skips = None, False, False
        found = FUNCTION.match(line)
        if not found or skips or not (found.group(2) or (inside and owner[1])):
            continue
        yield owner[0] if inside else None, found.group(3), clauses_at(lines, number)


def offers_of(text):
    """What src/lib.rt offers: its public modules, for each private one the names that are used from it, and its own types."""
    modules = re.findall(r"^pub mod (\w+);", text, re.MULTILINE)
    own = re.findall(r"^pub (?:struct|enum|trait) (\w+)", text, re.MULTILINE)
    names = {"lib": set(own)}
    for module, several, one in re.findall(r"^pub use (\w+)::(?:\{([^}]*)\}|(\w+));", text, re.MULTILINE):
        names.setdefault(module, set()).update(re.findall(r"\w+", several or one))
    return modules, names


def rows_of(crate):
    root = crate / "src/lib.rt"
    if not root.exists():
        return
    modules, names = offers_of(root.read_text(encoding="utf-8"))
    types = set().union(*names.values())
    for path in sorted((crate / "src").glob("*.rt")):
        module = path.stem
        for owner, name, clauses in functions_of(path):
            offered = owner in types if owner else name in names.get(module, ())
            if module not in modules and module != "lib" and not offered:
                continue
            before = [module] if module in modules else []
            yield "::".join(before + ([owner] if owner else []) + [name]), clauses


def listed(names):
    return ", ".join(name if name == NO_NAME else f"`{name}`" for name in names)


def table():
    for crate in sorted(pathlib.Path("crates").iterdir()):
        for call, clauses in rows_of(crate):
            needs = f"needs {listed(clauses['requires'])}; " if clauses["requires"] else ""
            gives = listed(clauses["ensures"]) or "none of its own"
            yield f"| `{crate.name}` | `{call}` | {needs}{gives} |\n"


def main(words):
    path = pathlib.Path(TO)
    text = path.read_text(encoding="utf-8")
    head, mark, rows = text.partition(MARK)
    if not mark:
        print(f"{TO} has no table to write")
        return 1
    wanted = "".join(table())
    if "--check" in words:
        print(f"{TO} has the clauses of the sources" if rows == wanted else "run tools/clauses.py")
        return 0 if rows == wanted else 1
    path.write_text(head + mark + wanted, encoding="utf-8")
    return 0


if __name__ == "__main__":
    sys.exit(main(sys.argv[1:]))
