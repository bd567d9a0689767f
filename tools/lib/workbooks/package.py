"""The zip archive of a workbook, whose files are its parts."""

import io
import re
import zipfile
from collections.abc import Callable, Iterator
from typing import TypeVar

from ..base import text
from .limits import CHUNK, LONGEST_NAME, MOST_PARTS, MOST_UNPACKED, broken_error, too_many_error

DIRECTORY = b"PK\x01\x02"  # begins the entry of a file in the directory of a zip archive
END, END_SIZE = b"PK\x05\x06", 22  # begins the end of the archive, which a comment may follow; its bytes

Result = TypeVar("Result")


class Package:
    """The parts of a workbook: the files of a zip archive, whose names don't differ by capitals alone."""

    def __init__(self, data: bytes) -> None:
        # The archive's directory is read whole, so its entries are counted first.
        if data.count(DIRECTORY) > MOST_PARTS:
            raise too_many_error(MOST_PARTS, "parts")
        self.archive = call_zipfile_or_refuse(lambda: zipfile.ZipFile(io.BytesIO(data)))
        self.parts: dict[str, zipfile.ZipInfo] = {}
        files = self.archive.infolist()
        if min((info.header_offset for info in files), default=0):
            raise broken_error("other bytes stand before its archive, such as another workbook")
        if not data.startswith(END, len(data) - len(self.archive.comment) - END_SIZE):
            raise broken_error("other bytes stand after its archive, such as another workbook")
        for info in files:
            if self.parts.setdefault(part_key(info.filename), info) is not info:
                raise broken_error(f"two parts are named {text.quoted(info.filename)}")
        self.unpacked = self.elements = 0

    def has(self, name: str) -> bool:
        return part_key(name) in self.parts

    def read_and_see_match(self, name: str, pattern: re.Pattern[bytes]) -> bool:
        """Whether a part has a match, of no more bytes than a name, as it is stored."""
        end = b""
        for chunk in self.read_chunks(self.parts[part_key(name)]) if self.has(name) else ():
            if pattern.search(end + chunk):
                return True
            end = chunk[-LONGEST_NAME:]
        return False

    def require_chunks(self, name: str) -> Iterator[bytes]:
        if not self.has(name):
            raise broken_error(f"it has no part {text.quoted(name)}")
        return self.read_chunks(self.parts[part_key(name)])

    def read_chunks(self, info: zipfile.ZipInfo) -> Iterator[bytes]:
        if info.compress_type not in (zipfile.ZIP_STORED, zipfile.ZIP_DEFLATED):
            raise broken_error(f"{text.quoted(info.filename)} is compressed in another way than Excel does it")
        length = 0
        with call_zipfile_or_refuse(lambda: self.archive.open(info)) as file:
            while chunk := call_zipfile_or_refuse(lambda: file.read(CHUNK)):
                length += len(chunk)
                self.unpacked += len(chunk)
                if self.unpacked > MOST_UNPACKED:
                    raise too_many_error(MOST_UNPACKED // 2**20, "MiB in its parts")
                yield chunk
        if length != info.file_size:
            raise broken_error(f"{text.quoted(info.filename)} has {length} bytes instead of {info.file_size}")


def part_key(name: str) -> str:
    return name.replace("\\", "/").lstrip("/").lower()


def call_zipfile_or_refuse(call: Callable[[], Result]) -> Result:
    """The result of a call of zipfile, which raises any exception if the archive is broken."""
    try:
        return call()
    except MemoryError:
        raise
    except Exception as fault:
        raise broken_error(text.safe(str(fault) or type(fault).__name__)) from None
