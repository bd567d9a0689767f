"""Broken texts: journals that were cut, doubled, quoted, shuffled or changed in single bytes and fields, and plain noise."""

import random
import re
from collections.abc import Callable

from lib.base import rules

Change = Callable[[random.Random, bytes], bytes]
SPECIAL = [b",", b'"', b"\r", b"\n", b"\r\n", b";", b":", b"-", b"+", b"0", b" ", b"\t", b"\x00", b"\x7f", b"\x80", b"\xff"]  # fmt: skip
NUMBER = re.compile(rb"-?[0-9]+")
LIMITS = [rules.LOWEST_PRICE, rules.HIGHEST_PRICE, rules.GREATEST_VOLUME, *rules.DAYS, rules.GREATEST_PERIOD, 0]
FIELDS = [
    b"", b"-0", b"+1", b"007", b"00", b"0", b"-", b"1", b"26", b"96", b"101",
    *(b"%d" % cents for cents in (rules.HIGHEST_PRICE, rules.HIGHEST_PRICE + 1, rules.LOWEST_PRICE, rules.LOWEST_PRICE - 1)),
    b"99999999999999999999", b"9" * 5_000, b"1:1;1:1", b"2:1;1:1", b"1:1;", b";1:1", b"1:", b":1", b"1:0", b"0:1", b"26:1", b"101:1",
    b"100:99999", b"1:100000", b"1:1:1", b"1:01",
    b"day", b"submit", b"amend", b"cancel", b"close", b"Close", b"hour", b"block", b"buy", b"sell", b"SELL", b"ABCDEFGH",
    b"ABCDEFGHI", b"ABCDEFGHIJKL", b"ABCDEFGHIJKLM", b"A1", b"a", b"A B", b"A-1", b'"', b'""', b'"x"y', b'a"b', b'"a,b"', b'"a\nb"',
    b"\xef\xbb\xbf", b"\xc3\xa9",
]  # fmt: skip


def draw_front(rng: random.Random, text: bytes) -> bytes:
    return text[: rng.randint(0, len(text))]


def draw_rest(rng: random.Random, text: bytes) -> bytes:
    return text[rng.randint(0, len(text)) :]


def with_insertion(rng: random.Random, text: bytes) -> bytes:
    at = rng.randint(0, len(text))
    return text[:at] + rng.choice(SPECIAL) * rng.choice([1, 1, 1, 2, 9]) + text[at:]


def with_gap(rng: random.Random, text: bytes) -> bytes:
    at = rng.randint(0, len(text))
    return text[:at] + text[at + rng.choice([1, 1, 2, 7]) :]


def with_changed_byte(rng: random.Random, text: bytes) -> bytes:
    at = rng.randint(0, len(text))
    byte = bytes([rng.randrange(128)]) if rng.random() < 0.7 else rng.choice(SPECIAL)
    return text[:at] + byte + text[at + 1 :]


def with_part_doubled(rng: random.Random, text: bytes) -> bytes:
    begin = rng.randint(0, len(text))
    end = min(len(text), begin + rng.choice([1, 5, 40, 400]))
    return text[:end] + text[begin:end] + text[end:]


def on_lines(change_line: Change) -> Change:
    """Changes one line of a text."""

    def changed(rng: random.Random, text: bytes) -> bytes:
        lines = text.splitlines(keepends=True)
        if not lines:
            return text
        at = rng.randrange(len(lines))
        lines[at] = change_line(rng, lines[at])
        return b"".join(lines)

    return changed


def on_fields(change_field: Change) -> Change:
    """Changes one field of a line."""

    def changed(rng: random.Random, line: bytes) -> bytes:
        body = line.rstrip(b"\r\n")
        fields = body.split(b",")
        at = rng.randrange(len(fields))
        fields[at] = change_field(rng, fields[at])
        return b",".join(fields) + line[len(body) :]

    return on_lines(changed)


def in_quotes(rng: random.Random, field: bytes) -> bytes:
    return b'"' + field.replace(b'"', b'""') + b'"'


def with_odd_quotes(rng: random.Random, field: bytes) -> bytes:
    at = rng.randint(0, len(field))
    inside = b'"' + field[:at] + b'"' + field[at:]
    return rng.choice([b'"' + field, field + b'"', inside, b'"' + field + b'""', b'""' + field])


def with_number(rng: random.Random, text: bytes) -> bytes:
    """Writes one of the numbers otherwise: another number, or none."""
    found = list(NUMBER.finditer(text))
    if not found:
        return text
    place, limit = rng.choice(found), rng.choice(LIMITS)
    near = str(limit + rng.choice([-1, 0, 1])).encode()
    forms = [near, near, b"-" + place[0], b"+" + place[0], b"0" + place[0], place[0] + b"0", b"-0", b"", b" " + place[0]]
    return text[: place.start()] + rng.choice(forms) + text[place.end() :]


def widened_line(rng: random.Random, line: bytes) -> bytes:
    """The line with far more fields, or a far longer one, than a record has."""
    more = rng.choice([b"," * 70_000, b'"",' * 30_000, b'"a"",' * 20_000, b"A" * 70_000 + b"," * 99, b"1:1;" * 20_000])
    body = line.rstrip(b"\r\n")
    return rng.choice([more + body, body + more]) + line[len(body) :]


def with_quotes_anywhere(rng: random.Random, text: bytes) -> bytes:
    """Quotes whole fields here and there: the text means the same."""
    lines = []
    for line in text.splitlines():
        fields = line.split(b",")
        lines.append(b",".join(in_quotes(rng, field) if rng.random() < 0.3 else field for field in fields))
    return b"".join(line + rng.choice([b"\n", b"\r", b"\r\n", b"\n\n", b"\r\n\r\n"]) for line in lines)


def with_lines_shuffled(rng: random.Random, text: bytes) -> bytes:
    lines = text.splitlines(keepends=True)
    first, rest = lines[:1], lines[1:]
    rng.shuffle(rest)
    return b"".join(first + rest) if rng.random() < 0.8 else b"".join(rest + first)


def with_other_end(rng: random.Random, line: bytes) -> bytes:
    return line.rstrip(b"\r\n") + rng.choice([b"", b"\r", b"\n", b"\r\n", b"\n\r", b"\n\n\n", b",\n", b" \n"])


CHANGES = [
    draw_front, draw_rest, with_insertion, with_insertion, with_gap, with_changed_byte, with_changed_byte, with_part_doubled,
    with_quotes_anywhere, with_lines_shuffled, on_lines(with_other_end),
    on_fields(lambda rng, field: rng.choice(FIELDS)), on_fields(lambda rng, field: rng.choice(FIELDS)),
    with_number, with_number, on_lines(widened_line), on_fields(in_quotes), on_fields(with_odd_quotes), on_fields(with_insertion),
    on_fields(with_gap),
]  # fmt: skip


def draw_noise(rng: random.Random) -> bytes:
    alphabet = rng.choice([b'day,24"\r\n', b"0123456789:;-,\n", bytes(range(256)), b'",\n'])
    return bytes(rng.choice(alphabet) for _ in range(rng.randint(0, 200)))


def lengthened(rng: random.Random, text: bytes) -> bytes:
    """A text with about as many bytes as may be read, with a long field in it or with line ends after it."""
    missing = rules.MOST_BYTES + rng.choice([-1, 0, 1]) - len(text)
    if rng.random() < 0.3:
        at = rng.randint(0, len(text))
        return text[:at] + b"A" * missing + text[at:]
    return text + rng.choice([b"\n", b"\r"]) * missing


def draw_broken(rng: random.Random, text: bytes) -> bytes:
    """The text after some changes."""
    for _ in range(rng.choice([1, 1, 1, 2, 3, 6])):
        text = rng.choice(CHANGES)(rng, text)
    return text
