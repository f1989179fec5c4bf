#!/usr/bin/env python3
"""Draws pictures of certificates from the words of docs/picture.md, and makes certificates of any size to draw. It shares nothing
with the program, so what both write is compared.

Usage, at the top of the repository:
    tools/draw_pictures.py                    writes docs/pictures/*.svg anew, and what crates/mixed_picture is to print
    tools/draw_pictures.py --check            whether they are that, and each is well formed
    tools/draw_pictures.py --made 750 FOLDER  writes the certificate made of 750 columns and its picture into FOLDER, as `made` and
                                              `made.stdout`: crates/mixed_picture is tried on them by `rt try --cases FOLDER`

Names are read from the input in the certificate. Of an input that is no matrix they are taken from the picture that is there.
"""
import pathlib
import re
import sys
import xml.etree.ElementTree

STYLE = (
    "<style>path{fill:#eef2f6;stroke:#667;%s}.o{fill:#fbeeb8}.m{fill:#f9d3d3}"
    ".c,.s{vector-effect:none;stroke-width:.6;stroke-linecap:square}.c{stroke:#1f4e79}"
    ".s{stroke:#d2601a;stroke-width:.68;stroke-linecap:round}.n{stroke:none}"
    ".p{text-anchor:end;fill:#667;font-size:.8em}</style>"
)
HEAD = '<svg xmlns="http://www.w3.org/2000/svg" font-family="sans-serif" style="background:#fff"'


class Form:
    """The rows, the columns and the parts of a certificate, as its lines say."""

    def __init__(self, text):
        length = int(re.search(r"^length (\d+)$", text, re.M).group(1))
        start = re.search(r"^length \d+\n", text, re.M).end()
        self.matrix = "\nkind matrix\n" in text[:start]
        self.echo = text.encode()[len(text[:start].encode()) :][:length].decode()
        lines = text[start + len(self.echo) + 1 :].splitlines()
        self.entries, self.parts = {}, []
        for line in lines:
            word = line.split(" ")[0]
            if word in ("P", "T"):
                head, items = line.split(":")
                row = ("q" if word == "P" else "t") + head.split(" ")[1]
                self.entries[row] = {int(item.split("=")[0]) for item in items.split()}
            if word in ("first", "block", "last"):
                body = line[len("first") :] if word == "first" else line[len("last") :] if word == "last" else line.split(":")[1]
                columns, rows = body.split("|")[:2]
                self.parts.append(([int(column) for column in columns.split()], rows.split()))
        self.columns = [column for columns, _ in self.parts for column in columns]
        self.rows = [row for _, rows in self.parts for row in rows]


def names_of_matrix(form):
    """The names of columns and of rows: a row of constants alone, one of symbols alone, or one of each with a column `*`."""
    unknowns, split, names = [], [], {}
    counts = {"q": 0, "t": 0}
    for line in form.echo.splitlines():
        words = line.split("#")[0].split()
        if not words:
            continue
        terms = [term.split("=") for term in words[2:]]
        unknowns += [name for name in dict.fromkeys(term[0] for term in terms) if name not in unknowns]
        symbols = any("?" in value for _, value in terms)
        constants = any(value.split("+")[0] not in ("?", "0") for _, value in terms)
        kinds = ["q"] * (constants or not symbols) + ["t"] * symbols
        for kind in kinds:
            counts[kind] += 1
            names[f"{kind}{counts[kind]}"] = words[1]
        split += ["*" + words[1]] * (len(kinds) == 2)
    columns = unknowns + split
    return [columns[column - 1] for column in form.columns], [names[row] for row in form.rows]


def names_of_picture(form, picture):
    """The names that a picture gives, in its order."""
    columns = re.findall(r'<text transform="[^"]*" dx=".4em" dy=".95em">([^<]*)</text>', picture)
    rows = re.findall(r'<text x="%d" y="\d+" dx=".4em" dy="1em">([^<]*)</text>' % len(form.columns), picture)
    return columns, rows[: len(form.rows)]


def frames(form, least):
    """The frames of the parts, each with its name where it is not too small."""
    left = top = 0
    for place, (columns, rows) in enumerate(form.parts):
        right, bottom = left + len(columns), top + len(rows)
        kind, name = "", str(place)
        if place == 0:
            kind, name = ' class="o"', "first: open" if columns else "first"
        elif place == len(form.parts) - 1:
            kind, name = ' class="m"', "last: too many" if rows else "last"
        title = f"<title>{name}, rows {len(rows)}, columns {len(columns)}</title>"
        yield f'<path{kind} d="M{left} {top}H{right}V{bottom}H{left}z">{title}</path>'
        if max(len(columns), len(rows)) >= least:
            yield f'<text class="p" x="{left}" y="{bottom}" dx="-.3em" dy="-.2em">{name}</text>'
        left, top = right, bottom


def dots(form, names):
    """The rows, each with its entries and its name."""
    for top, (row, name) in enumerate(zip(form.rows, names)):
        marks = "".join(f"M{left}.5 {top}.5h0" for left, column in enumerate(form.columns) if column in form.entries[row])
        kind = {"q": "c", "t": "s"}[row[0]]
        yield f'<path class="{kind}" d="{marks}"><title>{name}</title></path>'


def sizes(form, top):
    """The line of the sizes."""
    (first, *blocks, last), entries = form.parts, sum(map(len, form.entries.values()))
    first, last = (f"{len(rows)}x{len(columns)}" for columns, rows in (first, last))
    words = f"first {first}, blocks {len(blocks)}, last {last}, entries {entries}"
    return f'<text x="0" y="{top}" dx="-4em" dy="1em">{words}</text>'


def legend(top):
    """The lines that tell the two kinds of entries."""
    for line, (kind, words) in enumerate((("c", "a constant, in a row of P"), ("s", "a symbol, in a row of T")), top):
        yield f'<path class="{kind}" d="M0.5 {line}.5h0"/>'
        yield f'<text x="1" y="{line}" dx=".4em" dy="1em">{words}</text>'


def small(form, columns, rows):
    """A picture with names beside columns and rows."""
    across, down = len(form.columns), len(form.rows)
    yield (
        f'{HEAD} font-size="1" width="{20 * (across + 20)}" height="{20 * (down + 18)}" '
        f'viewBox="-6 -14 {across + 20} {down + 18}">'
    )
    yield STYLE % "stroke-width:.06"
    yield from frames(form, 1)
    yield from dots(form, rows)
    yield '<g font-size=".75">'
    for left, name in enumerate(columns):
        yield f'<text transform="translate({left} 0)rotate(-90)" dx=".4em" dy=".95em">{name}</text>'
    for top, name in enumerate(rows):
        yield f'<text x="{across}" y="{top}" dx=".4em" dy="1em">{name}</text>'
    yield from legend(down + 1)
    yield sizes(form, down + 3)
    yield "</g>"
    yield "</svg>"


def large(form, columns, rows):
    """A picture whose names a viewer tells."""
    across, down = len(form.columns), len(form.rows)
    letter = across // 40 + 1
    yield (
        f'{HEAD} width="1000" font-size="{letter}" '
        f'viewBox="-{6 * letter} -{4 * letter} {across + 10 * letter} {down + 8 * letter}">'
    )
    yield STYLE % "vector-effect:non-scaling-stroke"
    for left, name in enumerate(columns):
        yield f'<path class="n" d="M{left} 0v-{letter}h1V0z"><title>{name}</title></path>'
    yield from frames(form, letter)
    yield from dots(form, rows)
    yield sizes(form, down)
    yield "</svg>"


def draw(certificate, picture=""):
    """The picture of a certificate."""
    form = Form(certificate)
    names = names_of_matrix(form) if form.matrix else names_of_picture(form, picture)
    style = small if max(len(form.columns), len(form.rows)) <= 64 else large
    return "".join(line + "\n" for line in style(form, *names))


class Made:
    """A certificate as it grows: its equations, and the rows that they give."""

    def __init__(self):
        self.equations, self.base, self.mates, self.p, self.t = [], [], [], [], []

    def constants(self, name, columns, base):
        """An equation of ones at these columns, with its base column."""
        self.equations.append(f"eq {name} " + " ".join(f"x{column}=1" for column in columns))
        self.p.append(columns)
        self.base.append(f" {len(self.p)}={base}")
        return f"q{len(self.p)}"

    def symbols(self, name, columns, mate):
        """An equation of symbols at these columns, matched with one, or with none."""
        self.equations.append(f"eq {name} " + " ".join(f"x{column}=?" for column in columns))
        self.t.append(columns)
        self.mates += [f" {len(self.t)}={mate}"] if mate else []
        return f"t{len(self.t)}"


def made(size):
    """A certificate of so many columns, at least 5: one equation for two unknowns, blocks of two that are chained, behind a block of
    one where the size is even, and at last two equations for one unknown."""
    it, blocks = Made(), []
    first = f"first 1 2 | {it.symbols('pair', [1, 2], 1)}"
    if size % 2 == 0:
        blocks.append(f": 3 | {it.constants('lone', [3], 3)} |")
    for left in range(3 + len(blocks), size, 2):
        q, t = it.constants(f"sum{left}", [left, left + 1, left + 2], left + 1), it.symbols(f"law{left}", [left, left + 1], left)
        lower = f" {len(blocks)}" if left > 4 else ""
        blocks.append(f": {left} {left + 1} | {q} {t} |{lower}")
    last = f"last {size} | {it.symbols('once', [size], size)} {it.symbols('twice', [size], None)}"
    echo = "".join(line + "\n" for line in it.equations)
    units = [f"{row}: {row}=1" for row in range(1, len(it.p) + 1)]
    lines = [
        "mixed-certificate 1", "kind matrix", f"length {len(echo)}", echo,
        f"shape {len(it.equations)} {size} {len(it.p)} {len(it.t)} {size}", f"rank {size - 1}",
        "base" + "".join(it.base), "match" + "".join(it.mates),
        *(f"{word} {unit}" for word in "SU" for unit in units),
        *(f"P {row}: " + " ".join(f"{column}=1" for column in columns) for row, columns in enumerate(it.p, 1)),
        *(f"T {row}: " + " ".join(map(str, columns)) for row, columns in enumerate(it.t, 1)),
        first, *(f"block {number}{block}" for number, block in enumerate(blocks, 1)), last, "end",
    ]
    return "".join(line + "\n" for line in lines)


def drawn(top):
    """Each certificate whose picture is kept, with the file of the picture."""
    for certificate in sorted((top / "docs/pictures").glob("*.cert")):
        yield certificate, certificate.with_suffix(".svg")
    program = top / "crates/mixed_picture"
    yield program / "stdin", program / "stdout"


def main(words):
    if words[:1] == ["--made"]:
        certificate = made(int(words[1]))
        folder = pathlib.Path(words[2])
        (folder / "made").write_text(certificate, encoding="utf-8")
        (folder / "made.stdout").write_text(draw(certificate), encoding="utf-8")
        return 0
    failed = 0
    for certificate, to in drawn(pathlib.Path(__file__).resolve().parent.parent):
        was = to.read_text(encoding="utf-8") if to.exists() else ""
        picture = draw(certificate.read_text(encoding="utf-8"), was)
        xml.etree.ElementTree.fromstring(picture)
        if words != ["--check"]:
            to.write_text(picture, encoding="utf-8")
        elif picture != was:
            print(f"run {sys.argv[0]}: {to} is not the picture of its certificate")
            failed = 1
    return failed


if __name__ == "__main__":
    sys.exit(main(sys.argv[1:]))
