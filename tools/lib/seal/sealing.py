"""A journal under its heads: the operator's side of receipts."""

import secrets
from collections.abc import Iterable
from typing import NamedTuple

from cryptography.hazmat.primitives.asymmetric.ed25519 import Ed25519PrivateKey

from ..journal import journal
from . import heads, merkle, signing
from .heads import Extension, Head, Receipt, Salts


class Differs(Exception):
    """The journal doesn't begin with the entries of a head."""


class Entry(NamedTuple):
    record: str  # as in the written journal
    reply: str
    who: str | None  # the participant; None for a close, which has none


class Seal:
    """A journal that only grows, with its tree. A receipt is of an entry under a head, which may be of the journal as it was earlier."""

    def __init__(self, day: str, periods: int, salts: Salts, key: Ed25519PrivateKey) -> None:
        self.day, self.periods, self.salts, self.key = day, periods, salts, key
        self.entries: list[Entry] = []
        self.entry_salts: list[bytes] = []
        self.tree = merkle.Tree()

    def append(self, entry: Entry) -> None:
        """Adds an entry. The next head has it."""
        self.entries.append(entry)
        number = len(self.entries)
        salt = self.salts.salt(number, entry.record, entry.reply)
        self.entry_salts.append(salt)
        self.tree.append(heads.leaf_of(number, entry.record, entry.reply, salt))

    def salt(self, number: int) -> bytes:
        return self.entry_salts[number - 1]

    def signed_head(self, size: int | None = None) -> Head:
        """A head of the first `size` entries, or of all."""
        size = len(self.entries) if size is None else size
        return signing.head_with_signature(self.key, Head(self.day, self.periods, size, self.tree.root(size)))

    def receipt(self, number: int, head: Head) -> Receipt:
        entry = self.entries[number - 1]
        path = tuple(self.tree.inclusion_proof(number - 1, head.size))
        return Receipt(number, entry.record, entry.reply, self.salt(number), path, head)

    def require_extension(self, old: Head, head: Head) -> Extension:
        """The proof that a head's journal begins with an earlier head's. Ends with `Differs` if it doesn't."""
        if (old.day, old.periods) != (self.day, self.periods):
            raise Differs(f"the earlier head is of {old.day} with {old.periods} periods, and this journal of {self.day} with {self.periods}")
        if old.size > head.size:
            raise Differs(f"the earlier head has {old.size} entries, and this journal {head.size}")
        if self.tree.root(old.size) != old.root:
            raise Differs(f"the first {old.size} entries of this journal aren't the entries of the earlier head")
        return Extension(old, head, tuple(self.tree.consistency_proof(old.size, head.size)))


def draw_salts(day: str) -> Salts:
    return Salts(day, secrets.token_bytes(heads.HASH_BYTES))


def reply_of(reason: str | None) -> str:
    """The book's reply, from its reason for a refusal or None."""
    return heads.DONE if reason is None else f"refused,{reason}"


def seal_of(read: journal.Journal, reasons: Iterable[str | None], day: str, salts: Salts, key: Ed25519PrivateKey) -> Seal:
    """A journal with its replies under a seal. Each reply is given by the book's reason for a refusal or None."""
    seal = Seal(day, read.periods, salts, key)
    for command, reason in zip(read.commands, reasons):
        seal.append(Entry(journal.command_record_text(command), reply_of(reason), getattr(command, "who", None)))
    return seal
