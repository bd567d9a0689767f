"""The files that a crash may leave, by the writes and syncs of a desk; and a reader of such files, by their definition.

Between two syncs, each write may be lost, kept or torn: a crash leaves any bytes in its range, and any length between the old and the new
one. Bytes outside the range don't change."""

import itertools
import random
import re
from collections.abc import Iterator, Sequence
from typing import NamedTuple

HEAD = b"+dam-desk 1\n"
AFTER_FIRST = HEAD[1:] + b"-"
MOST_FILE_BYTES = 16_777_216  # bytes of a file
LINES = re.compile(rb"(?:\+[^\n]*\n)*")
# Lines that nobody has given, with a mark each, as garbage of a torn write.
GARBAGE = b"\n+cancel,A,NEVER,,,,,,\n" * 400
ANSWER = re.compile(rb"(?:day|(\d+)),")


def parse_marked_lines_or_none(file: bytes) -> bytes | None:
    """The lines that a file stands for, each with its mark; None if it isn't a journal."""
    if len(file) > MOST_FILE_BYTES:
        return None
    if file.startswith(HEAD):
        found = LINES.match(file, len(HEAD))
        assert found  # perhaps no line
        return found[0] if found.end() < MOST_FILE_BYTES else None
    return b"" if is_unmade(file) else None


def is_unmade(file: bytes) -> bool:
    """Whether a crash can have left this before the file was made whole."""
    return len(file) < 2 or file.startswith(b"-") and len(file) <= len(HEAD) + 1 or file[1:] == AFTER_FIRST


def is_at_rest(file: bytes) -> bool:
    """Whether the file is as a desk leaves it: its lines, and then the mark of a line that doesn't count."""
    marked = parse_marked_lines_or_none(file)
    rest = file[len(HEAD) + len(marked or b"") :]
    return marked is not None and file.startswith(HEAD) and rest.startswith(b"-") and b"\n" not in rest


class UnsyncedChange(NamedTuple):
    """A write that wasn't synced yet, or a change of the length if it has no bytes."""

    at: int
    bytes: bytes


class DiskMoment(NamedTuple):
    """A time between two changes of the disk: the file at the last sync, the changes since, and how many records were acknowledged and
    given until the moment ends and begins."""

    base: bytes
    changes: tuple[UnsyncedChange, ...]
    safe: int
    given: int

    @property
    def seen_file(self) -> bytes:
        """The file, as a process sees it."""
        file = self.base
        for change in self.changes:
            file = with_change(file, change)
        return file


def zeros(count: int) -> bytes:
    return bytes(max(0, count))


def with_change(file: bytes, change: UnsyncedChange) -> bytes:
    front = file[: change.at] + zeros(change.at - len(file))
    return front + change.bytes + file[change.at + len(change.bytes) :] if change.bytes else front


def changes_with(changes: Sequence[UnsyncedChange], change: UnsyncedChange) -> list[UnsyncedChange]:
    """The changes with one more. Writes that follow one another are one: a crash leaves any bytes in the range of both."""
    if changes and changes[-1].bytes and changes[-1].at + len(changes[-1].bytes) == change.at:
        return [*changes[:-1], UnsyncedChange(changes[-1].at, changes[-1].bytes + change.bytes)]
    return [*changes, change]


def count_acknowledged(text: bytes, before: int) -> int:
    """How many records the answers acknowledge: the day, and each entry up to the last one's number."""
    for line in text.splitlines():
        found = ANSWER.match(line)
        if found:
            before = max(before, 1 + int(found[1] or 0))
    return before


def draw_torn_files(file: bytes, change: UnsyncedChange, rng: random.Random, few: bool = False) -> Iterator[bytes]:
    """The files after a change that wasn't synced. Few: only some of them."""
    at, new = change
    yield file
    yield with_change(file, change)
    if not new:
        for length in range(min(at, len(file)), max(at, len(file))):
            yield file[:length] + zeros(length - len(file))
        return
    count = len(new)
    front, under, tail = file[:at], file[at : at + count], file[at + count :]
    if count == 1:
        for byte in range(256):
            yield front + bytes([byte]) + tail
        return
    full = under + zeros(count - len(under))
    noise, places = rng.randbytes(count), list(range(1, count))
    garbage = GARBAGE[rng.randrange(24) :][:count].ljust(count, b"+")
    if few:
        places = rng.sample(places, min(4, len(places)))
    for place in places:
        first, last = new[:place], new[place:]
        yield front + first + under[place:] + tail
        yield front + full[:place] + last + tail
        yield front + first + zeros(count - place) + tail
        yield front + first + noise[place:] + tail
        yield front + noise[:place] + last + tail
        yield front + first + garbage[: count - place] + tail
        yield front + garbage[:place] + last + tail
        if at + place >= len(file):
            yield front + noise[:place]
            yield front + first
        for byte in (0, 10, 43, 45, rng.randrange(256)):
            yield front + first + bytes([byte]) + last[1:] + tail
    for _ in range(2 if few else 40):
        yield front + b"".join(rng.choice([new, full, noise])[cell : cell + 16] for cell in range(0, count, 16)) + tail


def draw_files_at(moment: DiskMoment, rng: random.Random, few: bool = False) -> Iterator[bytes]:
    """The files that a crash may leave at a moment, each once."""
    seen = set()
    for image in draw_files_at_repeated(moment, rng, few):
        if hash(image) not in seen:
            seen.add(hash(image))
            yield image


def draw_files_at_repeated(moment: DiskMoment, rng: random.Random, few: bool) -> Iterator[bytes]:
    """The same, some of them several times: each change torn, with the others kept or lost."""
    if not moment.changes:
        yield moment.base
    for which in range(len(moment.changes)):
        rest = [at for at in range(len(moment.changes)) if at != which]
        ways = itertools.product([True, False], repeat=len(rest)) if len(rest) < 4 else [[True] * len(rest), [False] * len(rest)]
        for way in ways:
            is_kept = dict(zip(rest, way))
            before = moment.base
            for at in range(which):
                before = with_change(before, moment.changes[at]) if is_kept[at] else before
            for image in draw_torn_files(before, moment.changes[which], rng, few or any(way)):
                for at in range(which + 1, len(moment.changes)):
                    image = with_change(image, moment.changes[at]) if is_kept[at] else image
                yield image
