"""The newest head that a day has signed, in a file of its folder. A start compares the journal with it, and so sees one that has lost
entries since, or has others. The file is written without a sync, at most every PAUSE seconds, so that no command waits for it."""

import asyncio
import os
import threading
from collections.abc import Callable
from pathlib import Path

from cryptography.hazmat.primitives.asymmetric.ed25519 import Ed25519PrivateKey

from ..seal import heads, signing
from . import folder
from .ledger import Contradiction

PAUSE = 0.2  # seconds


def read_signed_head(path: Path, key: Ed25519PrivateKey) -> heads.Head | None:
    """The head in a file. None without the file, or if it isn't whole: a crash may leave it so. Ends with a contradiction if it is whole,
    and this key hasn't signed it: the office would sign a day with two keys."""
    try:
        head, _ = heads.parse_value_and_is_written(path.read_bytes(), heads.parse_head)
    except (FileNotFoundError, heads.BadRecord):
        return None
    if not signing.is_signed(key.public_key(), head):
        raise Contradiction(f"OtherKey: the head in {path.name} isn't signed by {folder.KEY}, or was changed")
    return head


class Newest:
    """The file. `note_head` is called from the event loop alone."""

    def __init__(self, path: Path, log: Callable[..., None]) -> None:
        self.path, self.log = path, log
        self.head: heads.Head | None = None
        self.written: heads.Head | None = None
        self.is_failing, self.lock = False, threading.Lock()
        self.task: asyncio.Task[None] | None = None

    def note_head(self, head: heads.Head) -> None:
        """Notes a head; the file has it within `PAUSE` seconds."""
        if self.head is None or head.size > self.head.size:
            self.head = head
            if self.task is None or self.task.done():
                self.task = asyncio.create_task(self.write_while_newer())

    async def write_while_newer(self) -> None:
        while self.head is not self.written:
            await asyncio.to_thread(self.write_if_newer)
            await asyncio.sleep(PAUSE)

    def stop_and_write(self) -> None:
        """Ends the task that writes, and writes the newest head now."""
        if self.task is not None:
            self.task.cancel()
        self.write_if_newer()

    def write_if_newer(self) -> None:
        """Replaces the file, if there is a newer head. A file that can't be written keeps the old one, and is logged once."""
        with self.lock:
            head = self.head
            if head is None or head is self.written:
                return
            made = self.path.with_name(f".{self.path.name}")
            try:
                made.write_bytes(heads.line_bytes_of(head))
                os.replace(made, self.path)
                self.written, self.is_failing = head, False
            except OSError as fault:
                if not self.is_failing:
                    self.log("signed head not kept", fault=str(fault))
                self.is_failing = True
