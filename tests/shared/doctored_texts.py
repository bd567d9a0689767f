"""Journals and results that somebody doctors, or writes in another encoding, at random."""

import csv
import io
import random

# The bytes that somebody who doctors a text, or a broken program, would put there.
INTERESTING = b"0123456789,-\n\r\" ;ABKacejr\x00\xff"


def with_changed_byte(rng: random.Random, data: bytes) -> tuple[str, bytes]:
    at = rng.randrange(len(data) + 1)
    kind = rng.randrange(4)
    byte = bytes([rng.choice(INTERESTING) if rng.random() < 0.8 else rng.randrange(256)])
    if kind == 0:
        return "a byte more", data[:at] + byte + data[at:]
    if kind == 1:
        return "a byte less", data[:at] + data[at + 1 :]
    return "another byte", data[:at] + byte + data[at + 1 :]


def with_changed_field(rng: random.Random, data: bytes) -> tuple[str, bytes]:
    """A field of a line, made larger, smaller, empty, or that of another line."""
    lines = [line.split(b",") for line in data.split(b"\n")]
    line = rng.choice([line for line in lines if len(line) > 1] or [lines[0]])
    at = rng.randrange(len(line))
    other = rng.choice(rng.choice(lines))
    number = line[at].removeprefix(b"-").isdigit()
    step = rng.choice([-10, -1, 1, 10])
    stepped = b"%d" % (int(line[at]) + step) if number else other
    line[at] = rng.choice([stepped, other, b"", b"0" + line[at], b"-" + line[at], line[at] + b"0"])
    return "a field", b"\n".join(b",".join(line) for line in lines)


def with_changed_line(rng: random.Random, data: bytes) -> tuple[str, bytes]:
    """A line less, twice, moved, or swapped with the next; or one of the text's words changed throughout."""
    lines = data.splitlines(keepends=True)
    at, to = rng.randrange(len(lines)), rng.randrange(len(lines))
    kind = rng.randrange(5)
    if kind == 0:
        return "a line less", b"".join(lines[:at] + lines[at + 1 :])
    if kind == 1:
        return "a line twice", b"".join(lines[: at + 1] + lines[at:])
    if kind == 2:
        line = lines.pop(at)
        return "a line moved", b"".join(lines[:to] + [line] + lines[to:])
    if kind == 3:
        lines[at], lines[to] = lines[to], lines[at]
        return "two lines swapped", b"".join(lines)
    one, other = rng.choice([(b"accepted", b"rejected"), (b"rejected", b"accepted"), (b"sell", b"buy"), (b"hour", b"block")])
    return "a word changed", data.replace(one, other, rng.choice([1, -1]))


def with_end_cut(rng: random.Random, data: bytes) -> tuple[str, bytes]:
    return "the end cut off", data[: rng.randrange(len(data) + 1)]


def draw_doctored(rng: random.Random, data: bytes) -> tuple[str, bytes]:
    """In words what was changed, and the changed text."""
    changes = [with_changed_byte, with_changed_field, with_changed_field, with_changed_line, with_changed_line, with_end_cut]
    return rng.choice(changes)(rng, data)


def draw_other_encoding(rng: random.Random, data: bytes) -> tuple[str, bytes]:
    """The same content in another encoding."""
    kind = rng.randrange(5)
    if kind == 0:
        return "CR LF", data.replace(b"\n", b"\r\n")
    if kind == 1:
        return "a byte order mark", b"\xef\xbb\xbf" + data
    if kind == 2:
        return "no last line end", data[:-1]
    if kind == 3:
        return "quotes", b"".join(b",".join(b'"%s"' % field for field in line.split(b",")) + b"\n" for line in data.splitlines())
    return "UTF-16", data.decode().encode("utf-16")


def decoded_or_none(data: bytes) -> bytes | None:
    """The text in the encoding of results, without what concerns only how it is encoded; None if it isn't one. Python's own modules read
    it, and nothing of `lib`."""
    for mark, encoding in ((b"\xef\xbb\xbf", "utf-8-sig"), (b"\xff\xfe", "utf-16"), (b"\xfe\xff", "utf-16")):
        if data.startswith(mark):
            break
    else:
        encoding = "ascii"
    try:
        text = data.decode(encoding)
        rows = list(csv.reader(io.StringIO(text, newline=""), strict=True))
    except (UnicodeDecodeError, csv.Error):
        return None
    while rows and not rows[-1]:
        rows.pop()
    if [] in rows or any(character in field for row in rows for field in row for character in '\r\n",'):
        return None
    return "".join(f"{','.join(row)}\n" for row in rows).encode()
