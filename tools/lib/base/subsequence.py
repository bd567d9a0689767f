"""A longest common subsequence of two lists: as many places as possible at which both have the same, in the order of both."""

from __future__ import annotations

from collections.abc import Callable, Hashable, Sequence

STEP = 256  # entries from one look at the time to the next


def longest_pairs(one: Sequence[Hashable], other: Sequence[Hashable], look: Callable[[], object] = lambda: None) -> list[tuple[int, int]]:
    """Pairs of the places of a longest common subsequence. `look` is called now and then, and may end the comparison.

    The time grows with the product of the lengths, but a machine word of bits at a time: two lists of 10,000 take a fraction of a second,
    whatever is in them."""
    shorter = min(len(one), len(other))
    begin = next((at for at in range(shorter) if one[at] != other[at]), shorter)
    end = next((at for at in range(shorter - begin) if one[-1 - at] != other[-1 - at]), shorter - begin)
    middle = longest_pairs_by_bits(one[begin : len(one) - end], other[begin : len(other) - end], look)
    pairs = [(at, at) for at in range(begin)] + [(begin + at, begin + place) for at, place in middle]
    return pairs + [(len(one) - at, len(other) - at) for at in range(end, 0, -1)]


def longest_pairs_by_bits(one: Sequence[Hashable], other: Sequence[Hashable], look: Callable[[], object]) -> list[tuple[int, int]]:
    """The same by bit vectors: after each number of entries of `other`, bit `at` of a row is 0 if the length of a longest common
    subsequence with the beginning of `one` grows at this place."""
    bits: dict[Hashable, int] = {}
    every = (1 << len(one)) - 1
    for at, entry in enumerate(one):
        bits[entry] = bits.get(entry, 0) | 1 << at
    row, rows = every, [every]
    for number, entry in enumerate(other):
        if number % STEP == 0:
            look()
        kept = row & bits.get(entry, 0)
        row = (row + kept | row - kept) & every
        rows.append(row)
    return pairs_traced_back(rows, len(one))


def pairs_traced_back(rows: list[int], length: int) -> list[tuple[int, int]]:
    """The pairs of a common subsequence of this length at most, traced back from the last row of bits."""
    pairs: list[tuple[int, int]] = []
    at, place = length, len(rows) - 1
    while at and place:
        if rows[place] >> at - 1 & 1:
            at -= 1
        elif not rows[place - 1] >> at - 1 & 1:
            place -= 1
        else:
            at, place = at - 1, place - 1
            pairs.append((at, place))
    return pairs[::-1]
