"""Contradictions, which one journal can't have: heads, entries and hashes that an operator signed, from all given files."""

from collections.abc import Mapping
from typing import NamedTuple

from ..base import text
from ..seal import merkle
from ..seal.heads import Extension, Head, Receipt
from ..tool import exits
from .findings import CONTRADICTION, WRONG, Finding, Place

TWICE = "two journals, or one journal twice"


def unsigned(head: Head) -> Head:
    """The signed content of a head. One content may have several signatures."""
    return head._replace(signature=b"")


class Hashed(NamedTuple):
    """A hash of neighbouring entries, which the operator signed with a root."""

    hash: bytes
    places: tuple[Place, ...]  # the first place that shows it, or the places of the hashes that make it


Subtrees = dict[merkle.Part, list[Hashed]]


class TwoHashes(NamedTuple):
    part: merkle.Part
    one: Hashed
    other: Hashed


class Signed:
    """The heads of an operator, and the entries and hashes under them. A key signs one journal for a day. So of one day and key, two heads
    contradict each other if they have one size and different roots, or different periods; two entries if they have one number and
    different leaves; and two hashes if they are of the same entries. No day has two keys."""

    def __init__(self) -> None:
        self.places: dict[Head, Place] = {}  # of each head, the first place that has it
        self.by_key: set[tuple[Head, str]] = set()  # each head with a key that signed it
        self.of_size: dict[tuple[str, str, int], tuple[Head, Place]] = {}  # of each day, key and size, the first head and its place
        self.of_day: dict[tuple[str, str], tuple[Head, Place]] = {}  # of each day and key, the first head and its place
        self.keys: dict[str, dict[str, Place]] = {}  # of each day, each key that signed a head, with the first place
        self.entries: dict[tuple[str, str, int], tuple[Receipt, Place]] = {}  # of each day, key and number, the first receipt and its place
        self.leaves: set[tuple[tuple[str, str, int], bytes]] = set()  # each day, key and number with a leaf
        self.subtrees: dict[tuple[str, str], Subtrees] = {}  # of each day and key, of each range of entries, the hashes
        self.reported_scopes: set[tuple[str, str]] = set()  # each day and key of which two trees or two entries are reported
        self.findings: list[Finding] = []  # the contradictions

    def add_head(self, head: Head, place: Place, key: str) -> None:
        """Adds a head that the operator signed with a key, by its name."""
        self.add_key(head.day, key, place)
        head = unsigned(head)
        self.places.setdefault(head, place)
        if (head, key) in self.by_key:
            return
        self.by_key.add((head, key))
        first, where = self.of_day.setdefault((head.day, key), (head, place))
        if first.periods != head.periods:
            self.add_finding(place, f"{periods_differ_text(head, first)}, in {where}")
        same, where = self.of_size.setdefault((head.day, key, head.size), (head, place))
        if same.root != head.root:
            self.reported_scopes.add((head.day, key))
            self.add_finding(place, f"{roots_differ_text(head)}; the other one is in {where}")
        if head.size:
            self.add_hashes(head.day, {(0, head.size): head.root}, place, key)

    def add_key(self, day: str, key: str, place: Place) -> None:
        keys = self.keys.setdefault(day, {})
        if key not in keys:
            keys[key] = place
            first, where = next(iter(keys.items()))
            if key != first:
                self.add_finding(place, f"two keys signed {day}: {exits.shown(key)}, and {exits.shown(first)} in {where}")

    def add_entry(self, receipt: Receipt, place: Place, key: str) -> None:
        """Adds the entry of a receipt that is right under a head that the operator signed."""
        day, leaf = receipt.head.day, receipt.leaf()
        self.add_hashes(day, merkle.hashes_shown_by_inclusion(leaf, receipt.number - 1, receipt.head.size, receipt.path), place, key)
        entry = day, key, receipt.number
        if (entry, leaf) in self.leaves:
            return
        self.leaves.add((entry, leaf))
        first, where = self.entries.setdefault(entry, (receipt, place))
        if first is not receipt:
            self.reported_scopes.add((day, key))
            self.add_finding(place, f"{entries_differ_text(receipt, first)}, in {where}: {TWICE}")

    def add_extension(self, extension: Extension, place: Place, key: str) -> None:
        """Adds the hashes that an extension of two heads of a day shows, both signed with a key."""
        old, new = extension.old, extension.new
        self.add_hashes(old.day, merkle.hashes_shown_by_consistency(old.size, old.root, new.size, new.root, extension.path), place, key)

    def add_hashes(self, day: str, shown: Mapping[merkle.Part, bytes], place: Place, key: str) -> None:
        """Adds hashes of entries: of each, the index of the first one and of the one after the last."""
        subtrees = self.subtrees.setdefault((day, key), {})
        for part, hashed in shown.items():
            found = subtrees.setdefault(part, [])
            if all(one.hash != hashed for one in found):
                found.append(Hashed(hashed, (place,)))

    def add_finding(self, place: Place, words: str) -> None:
        self.findings.append(Finding(*place, WRONG, words, about=CONTRADICTION))

    def contradictions(self) -> list[Finding]:
        """The findings. Of each day and key without two trees or two entries, two hashes of the fewest entries are one too."""
        hashes = [(scope[0], two_hashes(subtrees)) for scope, subtrees in self.subtrees.items() if scope not in self.reported_scopes]
        return [*self.findings, *(hashes_differ_finding(day, two) for day, two in hashes if two)]

    def heads(self) -> list[Head]:
        """All heads, by day and size."""
        return sorted(self.places, key=lambda head: (head.day, head.size))

    def later_head(self, head: Head) -> Head | None:
        """The last head of the same day, if it is later."""
        last = max((one for one in self.places if one.day == head.day), key=lambda one: one.size)
        return last if last.size > head.size else None


def two_hashes(subtrees: Subtrees) -> TwoHashes | None:
    """The fewest entries with two hashes, the first of such, and these two. The entries of an incomplete subtree
    also have the hash that their parts make, wherever these are shown."""
    for part in sorted(subtrees, key=lambda part: (part[1] - part[0], part)):
        shown = subtrees[part]
        made = hash_of_parts(subtrees, *part)
        if made is not None and made.hash != shown[0].hash:
            shown = [*shown, made]
        if len(shown) > 1:
            return TwoHashes(part, shown[0], shown[1])
    return None


def hash_of_parts(subtrees: Subtrees, begin: int, end: int) -> Hashed | None:
    """The hash of an incomplete subtree by the hashes of its parts, if each is known. A complete subtree needs none: each file that shows
    its right half shows its hash too."""
    count = end - begin
    if count & (count - 1) == 0:
        return None
    middle = begin + merkle.left_half(count)
    left = next(iter(subtrees.get((begin, middle), [])), None)
    right = next(iter(subtrees.get((middle, end), [])), None) or hash_of_parts(subtrees, middle, end)
    if left is None or right is None:
        return None
    return Hashed(merkle.node_hash(left.hash, right.hash), tuple(dict.fromkeys(left.places + right.places)))


def periods_differ_text(head: Head, other: Head) -> str:
    return f"the operator signed {head.day} with {head.periods} periods, and with {other.periods}"


def roots_differ_text(head: Head) -> str:
    count = text.counted(head.size, "entry", "entries")
    return f"the operator signed two trees of {head.day} with {count}: {TWICE}"


def entries_differ_text(receipt: Receipt, other: Receipt) -> str:
    one, two = (f"{each.record}, {each.reply}" for each in (receipt, other))
    differs = "with another salt" if one == two else f"as {two}"
    return f"the operator signed entry {receipt.number} of {receipt.head.day} as {one}; and {differs}"


def hashes_differ_finding(day: str, two: TwoHashes) -> Finding:
    (begin, end), one, other = two
    entries = f"entry {end}" if end - begin == 1 else f"entries {begin + 1} to {end}"
    (place, *_), last = (other.places, one.places) if len(other.places) == 1 else (one.places, other.places)
    where = "the other one is in" if len(last) == 1 else "the other one follows from"
    words = f"the operator signed two hashes of {entries} of {day}: {TWICE}; {where} {', '.join(map(str, last))}"
    return Finding(*place, WRONG, words, about=CONTRADICTION)
