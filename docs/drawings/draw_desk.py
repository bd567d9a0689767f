#!/usr/bin/env python3
"""draw_desk.py: the picture of one batch on the disk, which DESK.md shows (docs/desk.svg)."""

import sys

HEAD, HELD = b"+dam-desk 1\n", b"+day,24,,,,,,,\n"
BATCH = [b"submit,NORD,W-1,hour,sell,1500,12:400,,\n", b"cancel,SOL,S-7,,,,,,\n"]
# The file before the batch, after its first sync, and after its second.
STATES = [
    HEAD + HELD + b"-",
    HEAD + HELD + b"-" + b"+".join(BATCH) + b"-",
    HEAD + HELD + b"+" + b"+".join(BATCH) + b"-",
]
TITLES = ["At rest", "1. Write the batch after the mark; sync", "2. Write + over the mark; sync; answer"]
# What a crash leaves until the next sync is done.
CRASHES = [
    ["A crash now leaves the day's record.", "While 1 is written, the bytes after the", "mark can be any. They don't count."],
    ["A crash now leaves the day's record.", "While 2 is written, the mark can be", "any byte: all lines count, or the day's."],
    ["A crash now leaves all three records.", "They can be answered."],
]
WIDTH, ROW, LEFT, TOP, GAP, PLACES = 276, 20, 12, 34, 14, 5
PAPER, INK, LINE, COUNTS, REST = "#fefefe", "#24292f", "#8a8d91", "#9cc8f0", "#ffd76e"
PLAIN = 'font-family="DejaVu Sans, Verdana, sans-serif" font-size="12"'
TYPED = 'font-family="DejaVu Sans Mono, Menlo, monospace" font-size="11"'


def rows(file):
    """The lines of a file, each with whether it counts."""
    counts = True
    for line in file.split(b"\n"):
        counts = counts and line.startswith(b"+")
        yield line.decode(), counts


def column(number):
    """The lines of the picture for one state of the file."""
    left = LEFT + number * (WIDTH + GAP)
    yield f'<text x="{left}" y="22" {PLAIN} font-weight="bold" fill="{INK}">{TITLES[number]}</text>'
    for place, (text, counts) in enumerate(rows(STATES[number])):
        top = TOP + place * ROW
        fill = COUNTS if counts else REST
        yield f'<rect x="{left}" y="{top}" width="{WIDTH}" height="{ROW}" fill="{fill}" stroke="{LINE}"/>'
        yield f'<text x="{left + 5}" y="{top + 14}" {TYPED} fill="{INK}">{text}</text>'
    for place, text in enumerate(CRASHES[number]):
        top = TOP + PLACES * ROW + 20 + place * 17
        yield f'<text x="{left}" y="{top}" {PLAIN} fill="{INK}">{text}</text>'


def drawing():
    """The picture's text."""
    width, height = 2 * LEFT + 3 * WIDTH + 2 * GAP, TOP + PLACES * ROW + 20 + 3 * 17
    lines = [f'<svg xmlns="http://www.w3.org/2000/svg" viewBox="0 0 {width} {height}" width="{width}" height="{height}">']
    lines.append(f'<rect width="100%" height="100%" fill="{PAPER}"/>')
    for number in range(len(STATES)):
        lines += column(number)
    return "\n".join([*lines, "</svg>", ""])


if __name__ == "__main__":
    sys.stdout.write(drawing())
