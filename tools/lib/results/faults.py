"""The faults of a text, each as a line for readers that has parts for programs; and its lines, compared with the expected ones."""

from collections.abc import Hashable, Sequence

from ..base import subsequence

Pairs = Sequence[tuple[int | None, int | None]]

# The kinds of faults, in words; docs/FORMATS.md lists them for users.
KINDS = {
    "form": "a line that isn't one of these results, or the end of the text",
    "missing": "a line, or a command that was sent, is missing",
    "moved": "a line or a command stands in another place",
    "stray": "a line that doesn't belong there",
    "journal": "the results seem to be of another journal, or the journal has none",
    "link": "a block is accepted and its parent isn't",
    "group": "too many blocks of an exclusive group are accepted",
    "loss": "an accepted block loses; or, by the published numbers, an hourly order or a participant does",
    "balance": "no execution balances the accepted blocks in a period",
    "welfare": "the welfare",
    "price": "the price of a period",
    "volume": "the volume of a period",
    "executed": "the executed volume of an hourly order",
    "surplus": "the surplus of a block",
    "money": "by the published numbers, the bought, the sold and the published volume of a period differ",
    "sum": "the welfare isn't the sum of the published surpluses",
    "reply": "a reply of the book",
    "better": "another selection of blocks ranks above",
    "changed": "a command differs from the one that was sent",
    "repeated": "a command was sent fewer times",
    "unsent": "a command was not sent",
    "head": "the journal differs from a head that the operator signed, the salts aren't the journal's, or another key signed the head",
    "receipt": "the journal doesn't have a receipt's entry",
    "foreign": "a receipt or an earlier head isn't the operator's, or is of another day",
    "encoding": "line endings, trailing blank lines, a byte order mark or quotes: no number or word differs",
}


class FaultLine(str):
    """A line about a fault."""

    kind: str  # one of `KINDS`
    line: int | None  # the number of the line of the text, if it has one
    about: str | None  # the subject of that line

    def __new__(cls, words: str, kind: str, line: int | None = None, about: str | None = None) -> "FaultLine":
        made = super().__new__(cls, words)
        made.kind, made.line, made.about = kind, line, about
        return made

    def record(self) -> dict[str, str | int | None]:
        return {"kind": self.kind, "line": self.line, "about": self.about, "words": str(self)}


def line_fault(words: str, kind: str, line: int, about: str | None) -> FaultLine:
    return FaultLine(f"results line {line}: {words}", kind, line, about)


def moved_places(expected_lines: Sequence[Hashable], text_lines: Sequence[Hashable], pairs: Pairs) -> dict[int, int]:
    """The lines of `matched_pairs` that stand in the place of none and are missing in another: from the place in the text to the
    expected one."""
    apart = [(at, place) for at, place in pairs if at is None or place is None or expected_lines[at] != text_lines[place]]
    missing = {expected_lines[at]: at for at, _ in apart if at is not None}
    strays = {text_lines[place]: place for _, place in reversed(apart) if place is not None}
    return {place: missing[line] for line, place in strays.items() if line in missing}


def matched_pairs(expected_lines: Sequence[Hashable], text_lines: Sequence[Hashable]) -> Pairs:
    """The places of the expected lines and of those of a text, in their order, as pairs; None stands for the other place of a line that
    is missing, or that isn't expected. Lines are given by their subjects, so that a stray line is one pair."""
    if expected_lines == text_lines:  # the usual case, and far quicker to see
        return [(at, at) for at in range(len(expected_lines))]
    near = text_lines[: 2 * len(expected_lines)]
    pairs: list[tuple[int | None, int | None]] = []
    first, begin = 0, 0
    for last, end in [*subsequence.longest_pairs(expected_lines, near), (len(expected_lines), len(near))]:
        both = min(last - first, end - begin)
        pairs += [(first + step, begin + step) for step in range(both)]
        pairs += [(at, None) for at in range(first + both, last)] + [(None, at) for at in range(begin + both, end)]
        pairs += [(last, end)] if last < len(expected_lines) else []
        first, begin = last + 1, end + 1
    return pairs + [(None, at) for at in range(len(near), len(text_lines))]
