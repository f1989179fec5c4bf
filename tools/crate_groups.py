#!/usr/bin/env python3
"""Draws docs/groups.svg: the groups of crates.txt, and an arrow from each to those that it stands on, as far as that does not follow
from other arrows.

Usage, at the top of the repository: tools/crate_groups.py [--check]   (--check: only whether the file is that, and whether each crate
stands on crates of its own group and of those before it alone)
"""
import pathlib
import re
import sys

from generated import deliver

WIDTH, HEIGHT, ACROSS, DOWN, MARGIN = 190, 46, 40, 44, 20


def groups_of(text):
    """The groups of crates.txt in their order, each with its crates in theirs: {group: {crate: [what it stands on]}}."""
    groups = {}
    for line in text.splitlines():
        if line.startswith("# "):
            crates = groups.setdefault(line[2:], {})
        elif line:
            name, below = line.split(":")
            crates[name.split()[0]] = below.split()
    return groups


def wrong_ways(groups):
    """Crates that stand on a crate of the list which does not come before them."""
    order = [crate for crates in groups.values() for crate in crates]
    places = {crate: place for place, crate in enumerate(order)}
    for crates in groups.values():
        for crate, below in crates.items():
            yield from (f"{crate} stands on {other}" for other in below if places.get(other, -1) >= places[crate])


def arrows_of(groups):
    """For each group those that it stands on, without what follows from others."""
    home = {crate: group for group, crates in groups.items() for crate in crates}
    direct = {
        group: {home[other] for below in crates.values() for other in below if home.get(other, group) != group}
        for group, crates in groups.items()
    }
    whole = {}
    for group in groups:
        whole[group] = direct[group].union(*(whole[other] for other in direct[group]))
    return {
        group: [other for other in groups if other in below and not any(other in whole[third] for third in below)]
        for group, below in direct.items()
    }


def levels_of(arrows):
    """How far down each group stands: one more than the lowest of those on which it stands."""
    levels = {}
    for group, below in arrows.items():
        levels[group] = 1 + max((levels[other] for other in below), default=-1)
    return levels


def places_of(levels):
    """The middle of each group's box, level by level from the top of the picture, the lowest level at its foot."""
    rows = [[group for group in levels if levels[group] == level] for level in range(max(levels.values()) + 1)]
    widest = max(map(len, rows))
    for level, row in enumerate(reversed(rows)):
        y = MARGIN + level * (HEIGHT + DOWN) + HEIGHT / 2
        left = MARGIN + (widest - len(row)) * (WIDTH + ACROSS) / 2
        yield from ((group, (left + place * (WIDTH + ACROSS) + WIDTH / 2, y)) for place, group in enumerate(row))


def picture(groups):
    arrows = arrows_of(groups)
    places = dict(places_of(levels_of(arrows)))
    width = max(x for x, _ in places.values()) + WIDTH / 2 + MARGIN
    height = max(y for _, y in places.values()) + HEIGHT / 2 + MARGIN
    lines = [
        f'<svg xmlns="http://www.w3.org/2000/svg" width="{width:.0f}" height="{height:.0f}" font-family="sans-serif" font-size="14">',
        '<defs><marker id="head" viewBox="0 0 8 8" refX="8" refY="4" markerWidth="8" markerHeight="8" orient="auto">'
        '<path d="M0 0 L8 4 L0 8 z" fill="#555"/></marker></defs>',
        f'<rect width="{width:.0f}" height="{height:.0f}" fill="#fff"/>',
    ]
    for group, below in arrows.items():
        for other in below:
            (x, y), (z, w) = places[group], places[other]
            lines.append(
                f'<line x1="{x:.0f}" y1="{y + HEIGHT / 2:.0f}" x2="{z:.0f}" y2="{w - HEIGHT / 2:.0f}" stroke="#555" '
                'marker-end="url(#head)"/>'
            )
    for group, (x, y) in places.items():
        lines += [
            f'<rect x="{x - WIDTH / 2:.0f}" y="{y - HEIGHT / 2:.0f}" width="{WIDTH}" height="{HEIGHT}" rx="6" fill="#eef3f8" '
            'stroke="#446"/>',
            f'<text x="{x:.0f}" y="{y - 3:.0f}" text-anchor="middle">{group}</text>',
            f'<text x="{x:.0f}" y="{y + 14:.0f}" text-anchor="middle" font-size="11" fill="#555">{len(groups[group])} crates</text>',
        ]
    return "\n".join(lines + ["</svg>", ""])


def main():
    top = pathlib.Path(__file__).resolve().parent.parent
    groups = groups_of((top / "crates.txt").read_text(encoding="utf-8"))
    wrong = list(wrong_ways(groups))
    print("".join(f"crates.txt: {line}\n" for line in wrong), end="")
    return deliver(picture(groups), top / "docs/groups.svg", "the groups of crates.txt") or int(bool(wrong))


if __name__ == "__main__":
    sys.exit(main())
