"""How other programs may have encoded a text of `dam`: the text as `dam` writes it, with a fault for each change."""

import re
from collections.abc import Iterator

from ..base import text
from .faults import FaultLine

QUOTED = re.compile(rb'(?<![^,\n])"([^",\n]*)"(?![^,\n])')
FIELD_END = re.compile(rb"[,\n]")
PART = 1 << 16  # bytes of a text that are changed at once, or a field more
MARKS = {text.MARK: ("utf-8-sig", "a byte order mark"), b"\xff\xfe": ("utf-16", "a byte order mark of UTF-16")}
MARKS[b"\xfe\xff"] = MARKS[b"\xff\xfe"]
UTF_32 = b"\xff\xfe\0\0"  # its mark begins as the mark of UTF-16


def plain_text_and_faults(data: bytes) -> tuple[bytes, list[FaultLine]]:
    """The text as `dam` writes it, if other programs have changed only how it is encoded; and the changes."""
    odd = []
    for mark, (encoding, words) in MARKS.items():
        if data.startswith(mark) and not data.startswith(UTF_32) and is_text(data, encoding):
            data = data.decode(encoding).encode()
            odd.append(f"the text begins with {words}")
    for end, words in ((b"\r\n", "CR LF"), (b"\r", "CR")):
        if end in data:
            data = data.replace(end, b"\n")
            odd.append(f"the lines end with {words} instead of LF alone")
    if data and not data.endswith(b"\n"):
        data += b"\n"
        odd.append("the last line has no line end")
    elif data.endswith(b"\n\n") and data.strip(b"\n"):
        data = data.rstrip(b"\n") + b"\n"
        odd.append("empty lines follow the last line")
    if QUOTED.search(data):
        data = b"".join(QUOTED.sub(rb"\1", part) for part in parts_of_whole_fields(data))
        odd.append("fields stand in quotes")
    return data, [FaultLine(words, "encoding") for words in odd]


def parts_of_whole_fields(data: bytes) -> Iterator[bytes]:
    """The parts of a text, each of whole fields: to change all fields at once takes far more memory."""
    begin = 0
    while begin < len(data):
        found = FIELD_END.search(data, begin + PART)
        end = found.end() if found else len(data)
        yield data[begin:end]
        begin = end


def is_text(data: bytes, encoding: str) -> bool:
    try:
        return bool(data.decode(encoding))
    except UnicodeDecodeError:
        return False
