#!/usr/bin/env python3
"""Compares what tools/check_certificate.py answers with what `mixed check` does, by words and status, and ends with 1 where one differs.

It takes the certificates that the built program writes of the equation lists in examples/, without FIELD and over both fields, and
alters each in several ways, which a fixed seed draws. The last line counts the answers.

Usage, at the top of the repository: tools/certificate_answers.py

  MIXED=PATH   the built program; without it crates/mixed/out/mixed, which `rt run` leaves
"""
import collections
import os
import pathlib
import random
import re
import subprocess
import sys

from check_certificate import answer

TOP = pathlib.Path(__file__).resolve().parent.parent
PART = re.compile(rb"(?:first|block \d+:|last)((?: .*)?)")


def place_of(lines, opening):
    """The place of the first line that begins so."""
    return next(at for at, line in enumerate(lines) if line.startswith(opening))


def one_number(draw, lines):
    """A number is another one."""
    at, found = draw.choice([(at, found) for at, line in enumerate(lines) for found in re.finditer(rb"\d+", line)])
    number = draw.choice([int(found[0]) + 1, max(int(found[0]) - 1, 0), draw.randrange(1, 5), 65520])
    lines[at] = lines[at][: found.start()] + b"%d" % number + lines[at][found.end() :]


def one_byte(draw, lines):
    """A byte more stands in a line."""
    at = draw.randrange(len(lines))
    place, byte = draw.randrange(len(lines[at]) + 1), draw.choice([b" ", b"0", b"\r", b"\t", b"=", b"|", b"?", b"\xff", b"\n"])
    lines[at] = lines[at][:place] + byte + lines[at][place:]


def one_word(draw, lines):
    """A word of a line is gone."""
    at = draw.choice([at for at, line in enumerate(lines) if b" " in line])
    words = lines[at].split(b" ")
    words.pop(draw.randrange(1, len(words)))
    lines[at] = b" ".join(words)


def words_exchanged(draw, lines):
    """Two words of a line have changed places."""
    at = draw.choice([at for at, line in enumerate(lines) if line.count(b" ") > 1])
    words = lines[at].split(b" ")
    one, other = draw.sample(range(1, len(words)), 2)
    words[one], words[other] = words[other], words[one]
    lines[at] = b" ".join(words)


def line_dropped(draw, lines):
    del lines[draw.randrange(len(lines))]


def line_doubled(draw, lines):
    at = draw.randrange(len(lines))
    lines.insert(at, lines[at])


def lines_exchanged(draw, lines):
    one, other = draw.sample(range(len(lines)), 2)
    lines[one], lines[other] = lines[other], lines[one]


def echo_line_dropped(draw, lines):
    """A line of the input is gone, and the length tells it."""
    at, end = place_of(lines, b"length "), place_of(lines, b"shape ") - 1
    del lines[draw.randrange(at + 1, end)]
    lines[at] = b"length %d" % len(b"\n".join(lines[at + 1 : end]))


def row_scaled(draw, lines):
    """A row of S and P is taken twice, and the column of U that belongs to it by half."""
    prime = 2147483647 if b"field 2147483647" in lines else 65521
    row = draw.randrange(1, 1 + max(1, sum(line.startswith(b"S ") for line in lines)))
    for at, line in enumerate(lines):
        factor, column = (prime // 2 + 1, b"%d" % row) if line.startswith(b"U ") else (2, rb"\d+")
        if line.startswith((b"S %d:" % row, b"P %d:" % row, b"U ")):
            lines[at] = re.sub(rb"\b(%s)=(\d+)" % column, lambda it: b"%s=%d" % (it[1], int(it[2]) * factor % prime), line)


def pair_dropped(draw, lines):
    """A row has no base or matched column; some with a rank that tells it."""
    at, rank = draw.choice([place_of(lines, b"base"), place_of(lines, b"match")]), place_of(lines, b"rank ")
    word, *pairs = lines[at].split(b" ")
    if pairs:
        pairs.remove(draw.choice(pairs))
        lines[at], lines[rank] = b" ".join([word, *pairs]), b"rank %d" % max(0, int(lines[rank][5:]) - draw.randrange(2))


def pairs_exchanged(draw, lines):
    """Two rows have changed their base or matched columns, or a row has another one."""
    at = draw.choice([place_of(lines, b"base"), place_of(lines, b"match")])
    word, *pairs = [it.split(b"=") for it in lines[at].split(b" ")]
    if pairs:
        one, other = draw.choice(pairs), draw.choice(pairs)
        one[1], other[1] = (other[1], one[1]) if one is not other else 2 * (b"%d" % draw.randrange(1, 7),)
        lines[at] = b" ".join(b"=".join(it) for it in [word, *pairs])


def parts_of(lines):
    """The columns, the rows, each as its letter and its number, and the lower list of each part."""
    for found in filter(None, map(PART.fullmatch, lines)):
        columns, rows, lower = (*found[1].split(b"|"), b"")[:3]
        yield [{(b"", int(it)) for it in columns.split()}, {(it[:1], int(it[1:])) for it in rows.split()}, set(map(int, lower.split()))]


def put_parts(lines, parts):
    """Writes parts anew, each with its items in order, and numbers the blocks from 1."""
    at = place_of(lines, b"first")
    del lines[at : len(lines) - 1]
    for number, (columns, rows, lower) in enumerate(parts):
        inner = 0 < number < len(parts) - 1
        words = [b"block %d:" % number if inner else b"last" if number else b"first"]
        words += [*(b"%s%d" % it for it in sorted(columns)), b"|", *(b"%s%d" % it for it in sorted(rows))]
        words += [b"|", *(b"%d" % it for it in sorted(lower))] if inner else []
        lines.insert(at + number, b" ".join(words))


def blocks_exchanged(draw, lines):
    """Two blocks that follow one another have changed places, and the lower lists tell it."""
    parts = list(parts_of(lines))
    if len(parts) > 3:
        at = draw.randrange(1, len(parts) - 2)
        parts[at], parts[at + 1] = parts[at + 1], parts[at]
        put_parts(lines, [[*part[:2], {2 * at + 1 - it if it in (at, at + 1) else it for it in part[2]}] for part in parts])


def parts_joined(draw, lines):
    """Two parts that follow one another are one, and the lower lists tell it."""
    parts = list(parts_of(lines))
    if len(parts) > 2:
        at = draw.randrange(len(parts) - 1)
        parts[at : at + 2] = [[one | other for one, other in zip(*parts[at : at + 2])]]
        lower = [{it if it <= at else it - 1 for it in part[2]} - {0, number} for number, part in enumerate(parts)]
        put_parts(lines, [[*part[:2], numbers] for part, numbers in zip(parts, lower)])


def moved(draw, lines):
    """A column, a row or both stand in another part, or in this one too."""
    parts = list(parts_of(lines))
    one, other, stays = draw.choice(parts), draw.choice(parts), draw.random() < 0.3
    for place in draw.choice([(0,), (1,), (0, 1)]):
        moves = set(sorted(one[place])[:1])
        one[place] -= set() if stays else moves
        other[place] |= moves
    put_parts(lines, parts)


def lower_list(draw, lines):
    """A lower list has a block more, or one less."""
    parts = list(parts_of(lines))
    if len(parts) > 3:
        at = draw.randrange(2, len(parts) - 1)
        parts[at][2] ^= {draw.randrange(1, at)}
        put_parts(lines, parts)


HOW_OFTEN = {
    one_number: 5, one_byte: 1, one_word: 2, words_exchanged: 1, line_dropped: 1, line_doubled: 1, lines_exchanged: 1, echo_line_dropped: 1,
    row_scaled: 1, pair_dropped: 1, pairs_exchanged: 1, blocks_exchanged: 1, parts_joined: 1, moved: 3, lower_list: 2,
}


def cases(certificates):
    """Each certificate by its name, as it is and altered: its name, how it was altered, and the text."""
    draw = random.Random(12)
    for name, text in certificates:
        yield name, "as it is", text
        for alter in (alter for alter, often in HOW_OFTEN.items() for _ in range(often)):
            lines = text.split(b"\n")[:-1]
            alter(draw, lines)
            altered = b"".join(line + b"\n" for line in lines)
            if altered != text:
                yield name, alter.__name__, altered


def written(program):
    """The certificates that the program writes, by the names of the files and the fields."""
    for path in sorted((TOP / "examples").glob("*.txt")):
        for field in ([], ["65521"], ["2147483647"]):
            done = subprocess.run([program, "analyse", "matrix", *field], input=path.read_bytes(), capture_output=True, check=True)
            yield " ".join([path.name, *field]), done.stdout


def told(program, text):
    """The status of `mixed check`, and its words."""
    done = subprocess.run([program, "check"], input=text, capture_output=True, check=False)
    return done.returncode, (done.stdout or done.stderr.removeprefix(b"mixed: ")).decode().removesuffix("\n")


def main():
    program = os.environ.get("MIXED", TOP / "crates/mixed/out/mixed")
    if not os.path.exists(program):
        print(f"no program {program}: build it, or set MIXED")
        return 2
    differ, counts = 0, collections.Counter()
    for name, how, text in cases(written(program)):
        own, theirs = answer(text), told(program, text)
        counts[re.sub(r"line \d+", "a line", own[1])] += 1
        if own != theirs:
            differ += 1
            print(f"{name}, {how}: {own}, and by the program {theirs}, of\n{text.decode(errors='replace')}")
    told_so = ", ".join(f"{count} {words}" for words, count in sorted(counts.items(), key=lambda it: (len(it[0]), it[0])))
    print(f"{sum(counts.values())} certificates, {differ} answers differ; {told_so}")
    return 1 if differ else 0


if __name__ == "__main__":
    sys.exit(main())
