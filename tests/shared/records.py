"""Records of journals at their limits, with names that collide in a book's map and with others."""

import itertools
import subprocess
from collections.abc import Callable, Iterable, Iterator, Sequence
from pathlib import Path

from lib.base import rules

DAY, CLOSE = b"day,24,,,,,,,\n", b"close,,,,,,,,\n"
ORDERS = rules.MOST_HOURLY


def journal_text(records: Iterable[str], is_closed: bool = True, periods: int = 24) -> bytes:
    return "".join([f"day,{periods},,,,,,,\n", *records, *["close,,,,,,,,\n"] * is_closed]).encode()


def submits_of(names: Iterable[str], code: str = "A") -> list[str]:
    return [f"submit,{code},{name},hour,buy,0,1:1,,\n" for name in names]


def ordinary_names() -> list[str]:
    return [f"N-{number:010}" for number in range(ORDERS)]


def capture_colliding_names(room: Path, count: int = ORDERS, code: str = "A", keys: Sequence[object] = ()) -> list[str]:
    words = [str(word) for word in (room / "collide", count, code, *keys)]
    return subprocess.run(words, stdout=subprocess.PIPE, text=True, check=True).stdout.split()


def participant_codes() -> Iterator[str]:
    """The codes of as many participants as a day may have, again and again."""
    return itertools.cycle("ABCDEFGH"[: rules.MOST_DAY_PARTICIPANTS])


def volumes_text(periods: int, volume: Callable[[int], int]) -> str:
    return ";".join(f"{period}:{volume(period)}" for period in range(1, periods + 1))


def submits_of_book(periods: int, orders: int = ORDERS, blocks: int = rules.MOST_BLOCKS) -> Iterator[str]:
    """As many orders, half of them of each side, and as many blocks, with a volume in each period."""
    for at, code in zip(range(orders), participant_codes()):
        side, cents, period = ("buy", "sell")[at % 2], 4_000 + at * 7_919 % 4_001, 1 + at // 2 % periods
        yield f"submit,{code},N-{at},hour,{side},{cents},{period}:{10 + at * 104_729 % 891},,\n"
    for at, code in zip(range(blocks), participant_codes()):
        side, cents = ("buy", "sell")[at % 2], 5_500 + at * 617 % 1_001
        yield f"submit,{code},K-{at},block,{side},{cents},{volumes_text(periods, lambda period: 5 + (at + 1) * period * 37 % 56)},,\n"


def records_of_full_journal() -> list[str]:
    """A full book, an amend of each hourly order, and as many cancels as there may be before the close of a day."""
    owners = list(zip(range(ORDERS), participant_codes()))
    records = [*submits_of_book(24), *(f"amend,{code},N-{at},,,{4_000 + at},{1 + at % 24}:7,,\n" for at, code in owners)]
    left = rules.MOST_DAY_COMMANDS - len(records)
    return records + [f"cancel,{code},N-{at},,,,,,\n" for at, code in zip(range(left), participant_codes())]
