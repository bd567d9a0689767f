#!/usr/bin/env python3
"""draw_receipt.py: the picture of a head over eleven entries, and of the receipt of the seventh, which TRUST.md shows (docs/receipt.svg)."""

import sys
from pathlib import Path

sys.dont_write_bytecode = True
sys.path.insert(0, str(Path(__file__).resolve().parents[2] / "tools"))

from lib.seal import merkle

ENTRIES, OWN = 11, 7
WIDTH, HEIGHT, ACROSS, DOWN, EDGE, LEFT = 38, 24, 54, 52, 12, 74
PAPER, INK, LINE, FILL, GIVEN, FOUND = "#fefefe", "#24292f", "#8a8d91", "#ffffff", "#ffd76e", "#9cc8f0"
LOOK = 'font-family="DejaVu Sans, Verdana, sans-serif" font-size="12" text-anchor="middle"'
BESIDE = 'font-family="DejaVu Sans, Verdana, sans-serif" font-size="12"'


def nodes(begin, end):
    """The subtree of the entries from `begin` to `end`: each node by its entries, with its two children or none. Children come first."""
    if end - begin == 1:
        yield (begin, end), ()
        return
    middle = begin + merkle.left_half(end - begin)
    children = (begin, middle), (middle, end)
    for child in children:
        yield from nodes(*child)
    yield (begin, end), children


def kinds(tree):
    """The nodes that lead from the own entry to the root, and the nodes whose hashes the receipt has."""
    found = {node for node in tree if node[0] < OWN <= node[1]}
    given = {child for node in found for child in tree[node] if child not in found}
    return found, given


def drawing():
    """The picture's text."""
    tree = dict(nodes(0, ENTRIES))
    found, given = kinds(tree)
    levels = {}
    for node, children in tree.items():
        levels[node] = 1 + max((levels[child] for child in children), default=-1)
    top = max(levels.values())
    middles = {node: LEFT + EDGE + ACROSS * (node[0] + node[1] - 1) / 2 + WIDTH / 2 for node in tree}
    tops = {node: EDGE + DOWN * (top - level) for node, level in levels.items()}
    width, height = LEFT + 2 * EDGE + ACROSS * (ENTRIES - 1) + WIDTH, EDGE * 3 + DOWN * top + HEIGHT + 12
    lines = [f'<svg xmlns="http://www.w3.org/2000/svg" viewBox="0 0 {width} {height}" width="{width}" height="{height}">']
    lines.append(f'<rect width="100%" height="100%" fill="{PAPER}"/>')
    for node, children in tree.items():
        for child in children:
            thick = 3 if node in found and child in found else 1
            ends = f'x1="{middles[node]:g}" y1="{tops[node] + HEIGHT}" x2="{middles[child]:g}" y2="{tops[child]}"'
            lines.append(f'<line {ends} stroke="{INK if thick > 1 else LINE}" stroke-width="{thick}"/>')
    for node in tree:
        fill = FOUND if node in found else GIVEN if node in given else FILL
        place = f'x="{middles[node] - WIDTH / 2:g}" y="{tops[node]}"'
        lines.append(f'<rect {place} width="{WIDTH}" height="{HEIGHT}" rx="4" fill="{fill}" stroke="{LINE}"/>')
        if node[1] - node[0] == 1:
            lines.append(f'<text x="{middles[node]:g}" y="{tops[node] + HEIGHT + 16}" {LOOK} fill="{INK}">{node[1]}</text>')
    root = 0, ENTRIES
    lines.append(f'<text x="{middles[root] + WIDTH / 2 + 8:g}" y="{tops[root] + 16}" {BESIDE} fill="{INK}">the head, signed and published</text>')
    lines.append(f'<text x="{EDGE}" y="{height - EDGE - 8}" {BESIDE} fill="{INK}">entry</text>')
    return "\n".join([*lines, "</svg>", ""])


if __name__ == "__main__":
    sys.stdout.write(drawing())
