"""The entries of a day in memory: those that the desk has shown or answered, and no others. All of it follows from the journal."""

import asyncio
import collections
import concurrent.futures
from typing import NamedTuple

from cryptography.hazmat.primitives.asymmetric.ed25519 import Ed25519PrivateKey

from ..journal import book, journal
from ..journal.journal import Command
from ..seal import heads, sealing, signing
from .folder import Terms

SIGNING = concurrent.futures.ThreadPoolExecutor(2, "signing")  # of its own, so that no long request delays an acknowledgement


class Contradiction(Exception):
    """The desk's journal doesn't begin with the entries that it has answered."""


class OwnEntry(NamedTuple):
    """A participant's command, as it sees it."""

    number: int  # among its own, from 1
    entry: int  # in the journal
    record: str
    reply: str


class Ledger:
    def __init__(self, terms: Terms, salts: heads.Salts, key: Ed25519PrivateKey) -> None:
        self.seal = sealing.Seal(terms.day, terms.periods, salts, key)
        self.shares = terms.shares
        self.own: collections.defaultdict[str, list[int]] = collections.defaultdict(list)  # the numbers of each participant's entries
        self.book = book.Book(terms.periods)  # as the replies say it is
        self.heads: dict[int, heads.Head] = {}  # that were signed, by their size

    @property
    def size(self) -> int:
        return len(self.seal.entries)

    @property
    def is_closed(self) -> bool:
        return self.book.closed

    def enter_or_raise(self, command: Command, record: str, reply: str) -> None:
        """Adds an entry that is on the disk: the command, its record, and the desk's reply."""
        if reply not in heads.REPLIES:
            raise Contradiction(f"the desk gave entry {self.size + 1} a reply that no book has")
        who = getattr(command, "who", None)
        self.seal.append(sealing.Entry(record, reply, who))
        if who is not None:
            self.own[who].append(self.size)
        if reply == heads.DONE:
            self.book.carry_out(command)

    def enter_rest_of_journal_or_raise(self, records: list[str], replies: list[str]) -> None:
        """Enters the rest of the journal that a desk shows at its opening: it begins with the entries that are here."""
        held = [(entry.record, entry.reply) for entry in self.seal.entries]
        if list(zip(records, replies, strict=True))[: len(held)] != held:
            raise Contradiction(f"the desk's journal doesn't begin with the {len(held)} entries that it has answered")
        text = "".join(f"{record}\n" for record in [journal.day_record_text(self.seal.periods), *records])
        try:
            commands = journal.parse_journal(text.encode("ascii")).commands
        except (journal.JournalFault, UnicodeEncodeError) as fault:
            raise Contradiction(f"the desk shows no journal: {fault}") from None
        if list(map(journal.command_record_text, commands)) != records:
            raise Contradiction("the desk shows records that aren't in their written form")
        for entry in list(zip(commands, records, replies))[len(held) :]:
            self.enter_or_raise(*entry)

    def refuse_other_beginning(self, head: heads.Head, where: str) -> None:
        """Ends with a contradiction unless the journal begins with the entries of a head that was signed, which a file has."""
        if head.size > self.size:
            raise Contradiction(f"LostEntries: the desk's journal has {self.size} entries, and the signed head in {where} {head.size}")
        if self.seal.tree.root(head.size) != head.root or (head.day, head.periods) != (self.seal.day, self.seal.periods):
            begins = f"doesn't begin with the {head.size} entries of the signed head in {where}"
            raise Contradiction(f"OtherEntries: the desk's journal {begins}")

    def own_count(self, who: str) -> int:
        """How many commands of a participant are entered."""
        return len(self.own[who]) if who in self.own else 0

    def share(self, who: str) -> int:
        return self.shares.get(who, 0)

    def own_entry(self, who: str, number: int) -> OwnEntry:
        entry = self.own[who][number - 1]
        found = self.seal.entries[entry - 1]
        return OwnEntry(number, entry, found.record, found.reply)

    def own_entries(self, who: str, since: int = 0) -> list[OwnEntry]:
        """All of them, or those after this number."""
        return [self.own_entry(who, number) for number in range(since + 1, self.own_count(who) + 1)]

    def own_orders(self, who: str) -> list[tuple[str, journal.Order]]:
        """A participant's orders in the book, in its order, each with its name."""
        return [(name, order) for (owner, name), order in self.book.rows.items() if owner == who]

    def heads_with_signatures(self, unsigned: list[heads.Head]) -> list[heads.Head]:
        """The heads with their signatures. It changes nothing here, and so may run in a thread of its own."""
        return [signing.head_with_signature(self.seal.key, head) for head in unsigned]

    async def sign_and_cache_heads(self, begin: int, end: int) -> None:
        """Signs the heads of the entries after `begin` up to `end`, while the next ones are entered."""
        seal = self.seal
        unsigned = [heads.Head(seal.day, seal.periods, size, seal.tree.root(size)) for size in range(begin + 1, end + 1)]
        signed = await asyncio.get_running_loop().run_in_executor(SIGNING, self.heads_with_signatures, unsigned)
        self.heads.update(zip(range(begin + 1, end + 1), signed))

    def signed_head(self, size: int | None = None) -> heads.Head:
        """The signed head of the first entries, or of all."""
        size = self.size if size is None else size
        if size not in self.heads:
            self.heads[size] = self.seal.signed_head(size)
        return self.heads[size]

    def receipt(self, entry: int) -> heads.Receipt:
        """The receipt of an entry: under the head of the entries up to this one, so that it is the same at any time."""
        return self.seal.receipt(entry, self.signed_head(entry))

    def journal_bytes(self) -> bytes:
        lines = [journal.day_record_text(self.seal.periods), *(entry.record for entry in self.seal.entries)]
        return "".join(f"{line}\n" for line in lines).encode()

    def replies_bytes(self) -> bytes:
        lines = [f"day,{self.seal.periods}", *(f"{number},{entry.reply}" for number, entry in enumerate(self.seal.entries, 1))]
        return "".join(f"{line}\n" for line in lines).encode()
