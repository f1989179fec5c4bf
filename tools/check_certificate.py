#!/usr/bin/env python3
"""Checks a certificate of an equation list by the twelve rules of docs/reading-a-certificate.md, and uses nothing of the program.

It was written from that page and docs/formats.md alone, with equation_list.py beside it. Words and statuses are those of `mixed check`:
0 for `accepted`, 7 for a rule, 3 for a line that is none of a certificate; and 2 for netlists and flowsheets, which it does not read.

Usage: tools/check_certificate.py [FILE ..]   (no file: standard input; of several files the highest status; Python 3.9)
"""
import collections
import re
import sys

from equation_list import layered_matrix

COUNT, ITEM = "(0|[1-9][0-9]{0,9})", "[1-9][0-9]{0,9}"
LIST, PAIRS = f"((?: {ITEM})*)", f"((?: {ITEM}={ITEM})*)"
TAIL = f"{LIST} \\|((?: q{ITEM})*)((?: t{ITEM})*)"
Part = collections.namedtuple("Part", "columns rows lower")


class NoCertificate(Exception):
    """The first line that is no line of a certificate, by its number."""


class Lines:
    """The lines of a text, taken one after another."""

    def __init__(self, text):
        self.text, self.at, self.number = text, 0, 0

    def demand(self, holds):
        if not holds:
            raise NoCertificate(self.number)

    def take(self, form, opening=""):
        """The groups of the next line, which has this form behind its opening."""
        self.number += 1
        self.demand(self.text.startswith(opening.encode(), self.at))
        found = re.compile(form.encode() + rb"\n").match(self.text, self.at + len(opening))
        self.demand(found)
        self.at = found.end()
        return found.groups(b"")

    def numbers(self, group, most):
        """The numbers of a group, which rise and are at most so large."""
        found = [int(it) for it in re.findall(rb"[0-9]+", group)]
        self.demand(all(it < other for it, other in zip(found, found[1:])) and all(it <= most for it in found))
        return found

    def pairs(self, opening, rows, most):
        """The items of the next line: rising numbers up to `rows`, each with one up to `most`."""
        group = self.take(PAIRS, opening)[0]
        values = [int(it) for it in re.findall(rb"=([0-9]+)", group)]
        self.demand(all(it <= most for it in values))
        return dict(zip(self.numbers(re.sub(rb"=[0-9]+", b"", group), rows), values))

    def part(self, opening, constants, symbols, columns, block=0):
        """The part of the next line, which is that of a block if it has a number. A row is a letter and a number."""
        listed, q_rows, t_rows, *lower = self.take(f"{TAIL} \\|{LIST}" if block else TAIL, opening)
        self.demand(listed or not block)
        rows = [("q", it) for it in self.numbers(q_rows, constants)] + [("t", it) for it in self.numbers(t_rows, symbols)]
        return Part(self.numbers(listed, columns), rows, {it for group in lower for it in self.numbers(group, block - 1)})


class Certificate:
    """What a certificate says; the entries and columns of rows, the parts of columns and what these lead to; and the rules."""

    def __init__(self, text):
        lines = Lines(text)
        states_field = lines.take("mixed-certificate ([12])") == (b"2",)
        self.prime = int(lines.take("field (65521|2147483647)")[0]) if states_field else 65521
        self.kind = lines.take("kind (matrix|netlist|flowsheet)")[0]
        length = lines.numbers(lines.take(f"length {COUNT}")[0], 8388608)[0]
        self.echo = lines.take(f"((?s:.{{{length}}}))")[0]
        self.shape = [lines.numbers(it, most)[0] for it, most in zip(lines.take("shape" + f" {COUNT}" * 5), [4096] * 4 + [8192])]
        constants, symbols, columns = sizes = self.shape[2:]
        self.rank = lines.numbers(lines.take(f"rank {COUNT}")[0], 8192)[0]
        self.base, self.match = lines.pairs("base", constants, columns), lines.pairs("match", symbols, columns)
        self.s, self.u, self.p = (
            [lines.pairs(f"{name} {row}:", most, self.prime - 1) for row in range(1, constants + 1)]
            for name, most in (("S", constants), ("U", constants), ("P", columns))
        )
        self.t = [set(lines.numbers(lines.take(LIST, f"T {row}:")[0], columns)) for row in range(1, symbols + 1)]
        self.parts = [lines.part("first", *sizes)]
        while text.startswith(b"block", lines.at):
            self.parts.append(lines.part(f"block {len(self.parts)}:", *sizes, len(self.parts)))
        self.parts.append(lines.part("last", *sizes))
        lines.take("end")
        lines.number += 1
        lines.demand(lines.at == len(text))
        self.columns, self.last = range(1, self.shape[4] + 1), len(self.parts) - 1
        self.entries = {("q", row): set(it) for row, it in enumerate(self.p, 1)} | {("t", row): it for row, it in enumerate(self.t, 1)}
        self.column_of = {("q", row): it for row, it in self.base.items()} | {("t", row): it for row, it in self.match.items()}
        self.part_of = {column: number for number, part in enumerate(self.parts) for column in part.columns}
        self.free = set(self.columns) - set(self.column_of.values())
        self.ends = set().union(*(it for row, it in self.entries.items() if row not in self.column_of))
        self.leads, self.led = ({column: set() for column in self.columns} for _ in range(2))
        for column, entry in ((column, entry) for row, column in self.column_of.items() for entry in self.entries[row]):
            self.leads[entry].add(column)
            self.led[column].add(entry)

    def rule_1(self):
        """The input in it is a model of its kind."""
        self.model = layered_matrix(self.echo, self.prime)
        return self.model is not None

    def rule_2(self):
        """The shape is that of the model."""
        return self.shape == self.model.shape

    def rule_3(self):
        """S * U is the unit matrix."""
        return product(self.s, self.u, self.prime) == [{row: 1} for row in range(1, len(self.s) + 1)]

    def rule_4(self):
        """P is S * Q, and the T lines are the rows of symbols."""
        return product(self.s, self.model.constants, self.prime) == self.p and self.t == self.model.symbols

    def rule_5(self):
        """Each base column is a unit column of P."""
        standing = collections.Counter(column for row in self.p for column in row)
        return all(self.p[row - 1].get(column) == standing[column] == 1 for row, column in self.base.items())

    def rule_6(self):
        """Each matched place has a symbol, and no column stands twice in `base` and `match`."""
        differ = len(self.free) == len(self.columns) - len(self.column_of)
        return differ and all(column in self.t[row - 1] for row, column in self.match.items())

    def rule_7(self):
        """R + N - U is the number of the pairs."""
        return self.rank + self.shape[4] - self.shape[1] == len(self.column_of)

    def rule_8(self):
        """Each column stands in exactly one part."""
        return sorted(column for part in self.parts for column in part.columns) == list(self.columns)

    def rule_9(self):
        """Each row stands with its base or matched column, each other row in `last`, and in no other part."""
        standing = [(row, number) for number, part in enumerate(self.parts) for row in part.rows]
        return sorted(standing) == sorted((row, self.part_of.get(self.column_of.get(row), self.last)) for row in self.entries)

    def rule_10(self):
        """Free columns stand in `first`, ends in `last`; columns outside `last` lead to `first`, their own part or blocks below it."""
        tails = all(self.part_of[it] == 0 for it in self.free) and all(self.part_of[it] == self.last for it in self.ends)
        below = chains([part.lower for part in self.parts[:-1]])
        allowed = [{0, number} | blocks for number, blocks in enumerate(below)] + [set(range(self.last + 1))]
        return tails and all(self.part_of[it] in allowed[self.part_of[column]] for column in self.columns for it in self.leads[column])

    def rule_11(self):
        """Columns of `first` are reached from free ones, those of `last` reach ends, and those of a block reach each other."""
        ways = [(self.free, self.leads, self.parts[0]), (self.ends, self.led, self.parts[-1])]
        ways += [(part.columns[:1], arcs, part) for part in self.parts[1:-1] for arcs in (self.leads, self.led)]
        return all(all_reached(starts, arcs, set(part.columns)) for starts, arcs, part in ways)

    def rule_12(self):
        """Lower lists have exactly the blocks right below, and of the blocks that may come next the one with the least column does."""
        led_to = [{self.part_of[it] for column in part.columns for it in self.leads[column]} for part in self.parts[:-1]]
        steps = [blocks - {0, number} for number, blocks in enumerate(led_to)]
        below = chains(steps)
        right_below = [blocks - set().union(*(below[block] for block in blocks)) for blocks in steps]
        ready = [(part.columns[0], max(blocks, default=0)) for part, blocks in zip(self.parts[1:-1], below[1:])]
        ordered = all(ready[at][0] <= least for at in range(len(ready)) for least, behind in ready[at:] if behind <= at)
        return [part.lower for part in self.parts[:-1]] == right_below and ordered


def product(left, right, prime):
    """The product of two matrices, each row as its entries that are not 0."""
    rows = []
    for row in left:
        sums = collections.Counter()
        for number, factor in row.items():
            sums.update({column: factor * entry for column, entry in right[number - 1].items()})
        rows.append({column: total % prime for column, total in sums.items() if total % prime})
    return rows


def all_reached(starts, arcs, columns):
    """Whether all of these columns are among the starts, or reached from one by columns among them."""
    found, waiting = set(starts), list(starts)
    while waiting:
        new = (arcs[waiting.pop()] & columns) - found
        found |= new
        waiting += new
    return found >= columns


def chains(lists):
    """For each list of numbers of lists before it those numbers, those in their lists, and so on."""
    reached = []
    for numbers in lists:
        reached.append(set(numbers).union(*(reached[number] for number in numbers)))
    return reached


def answer(text):
    """The status, and the words that standard output gets for 0 and standard error for others."""
    if len(text) > 2147483648:
        return 3, "input longer than 2147483648 bytes"
    try:
        certificate = Certificate(text)
    except NoCertificate as line:
        return 3, f"line {line}: not a certificate line"
    if certificate.kind != b"matrix":
        return 2, "reads certificates of equation lists alone"
    broken = next((number for number in range(1, 13) if not getattr(certificate, f"rule_{number}")()), None)
    return (7, f"rejected by rule {broken}") if broken else (0, "accepted")


def main(names):
    highest = 0
    for name in names or [0]:
        with open(name, "rb") as stream:
            status, words = answer(stream.read())
        print(f"{name}: {words}" if name else words, file=sys.stderr if status else sys.stdout)
        highest = max(highest, status)
    return highest


if __name__ == "__main__":
    sys.exit(main(sys.argv[1:]))
