#!/usr/bin/env python3
"""draw_crates.py > docs/crates.svg: draws the crates of crates.txt, each above those that it uses.

A line from a crate down to one that it also uses by way of another is left out. In each row that a line passes it has a place of its own
between the boxes. The rows follow from the list. In a row the order is one in which few lines cross."""

import itertools
import sys
from pathlib import Path

TOP = Path(__file__).resolve().parents[2]
sys.dont_write_bytecode = True
sys.path.insert(0, str(TOP / "tools"))

from lib.crates import crates

WIDTH, HEIGHT, PASSAGE, ACROSS, DOWN, EDGE = 116, 30, 10, 16, 40, 12
INK, LINE, PAPER, FILL, PROGRAM = "#1b1c1d", "#6d7073", "#fefefe", "#d9e6f2", "#f3e6c8"
LOOK = 'font-family="DejaVu Sans, sans-serif" font-size="12" text-anchor="middle"'


def read(top=TOP):
    return crates.without_foreign(crates.read_crates(top))


def direct(used, name):
    """The crates that a crate uses, without those that it also uses by way of another."""
    by_way = set().union(*(crates.crates_below(used, other) for other in used[name]))
    return [other for other in used[name] if other not in by_way]


def heights(used):
    """The row of each crate, counted from the bottom: one below the lowest that uses it; what nothing uses is at the top."""
    users = {name: [other for other in used if name in used[other]] for name in used}
    found = {}

    def depth(name):
        if name not in found:
            found[name] = 1 + max((depth(other) for other in users[name]), default=-1)
        return found[name]

    deepest = max(depth(name) for name in used)
    return {name: deepest - depth for name, depth in found.items()}


def ways(used):
    """For each line the places that it passes, from a crate down to one that it uses: a name is a crate's box, a pair a passage."""
    at = heights(used)
    for name in used:
        for other in direct(used, name):
            yield [name, *((f"{name}-{other}", row) for row in range(at[name] - 1, at[other], -1)), other]


def rows(used):
    """The boxes and passages of each row, in an order that no exchange of two makes better."""
    at = heights(used)
    lines = list(ways(used))
    found = [[name for name in used if at[name] == row] for row in range(1 + max(at.values()))]
    for line in lines:
        for passage in line[1:-1]:
            found[passage[1]].append(passage)
    steps = [[] for _ in found]  # of the lines, by the row that they come from
    for line in lines:
        for upper, lower in zip(line, line[1:]):
            steps[upper[1] if isinstance(upper, tuple) else at[upper]].append((upper, lower))
    while any([improved(found, row, steps) for row in found]):
        pass
    return found


def improved(found, row, steps):
    """Exchanges two of a row if that makes the picture better, as often as it does; whether it did."""
    best, is_better = tangle(found, steps), False
    for one in range(len(row)):
        for other in range(one):
            row[one], row[other] = row[other], row[one]
            now = tangle(found, steps)
            if now < best:
                best, is_better = now, True
            else:
                row[one], row[other] = row[other], row[one]
    return is_better


def tangle(found, steps):
    """How many pairs of lines cross, and then how far the lines go sideways."""
    middles = centres(found)
    ends = [[(middles[upper], middles[lower]) for upper, lower in row] for row in steps]
    crossed = sum((one[0] - other[0]) * (one[1] - other[1]) < 0 for row in ends for one, other in itertools.combinations(row, 2))
    return crossed, sum(abs(upper - lower) for row in ends for upper, lower in row)


def widths(row):
    return [PASSAGE if isinstance(item, tuple) else WIDTH for item in row]


def centres(levels):
    """How far the middle of each box and passage is from the left; the rows are centred."""
    broadest = max(sum(widths(row)) + ACROSS * (len(row) - 1) for row in levels)
    found = {}
    for row in levels:
        left = EDGE + (broadest - sum(widths(row)) - ACROSS * (len(row) - 1)) / 2
        for item, width in zip(row, widths(row)):
            found[item] = left + width / 2
            left += width + ACROSS
    return found


def drawing(used, programs):
    """The picture's text."""
    levels = rows(used)
    middles = centres(levels)
    tops = {item: EDGE + (len(levels) - 1 - row) * (HEIGHT + DOWN) for row, items in enumerate(levels) for item in items}
    width, height = max(middles.values()) + WIDTH / 2 + EDGE, max(tops.values()) + HEIGHT + EDGE
    lines = [f'<svg xmlns="http://www.w3.org/2000/svg" viewBox="0 0 {width:g} {height:g}" width="{width:g}" height="{height:g}">']
    lines.append(f'<rect width="100%" height="100%" fill="{PAPER}"/>')
    for first, *passages, last in ways(used):
        points = [(middles[first], tops[first] + HEIGHT)]
        points += [(middles[item], tops[item] + down) for item in passages for down in (0, HEIGHT)]
        points.append((middles[last], tops[last]))
        lines.append(f'<polyline points="{" ".join(f"{x:g},{y:g}" for x, y in points)}" fill="none" stroke="{LINE}"/>')
    for name in used:
        left, top = middles[name] - WIDTH / 2, tops[name]
        fill = PROGRAM if name in programs else FILL
        lines.append(f'<rect x="{left:g}" y="{top:g}" width="{WIDTH}" height="{HEIGHT}" rx="4" fill="{fill}" stroke="{LINE}"/>')
        lines.append(f'<text x="{middles[name]:g}" y="{top + HEIGHT / 2 + 4:g}" {LOOK} fill="{INK}">{name}</text>')
    return "\n".join([*lines, "</svg>", ""])


def main():
    programs = {path.parent.parent.name for path in (TOP / "crates").glob("*/src/main.rt")}
    sys.stdout.write(drawing(read(), programs))


if __name__ == "__main__":
    main()
