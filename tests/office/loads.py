"""Loads with kills of the office and its desk, and the faults of the acknowledged commands of a load."""

import asyncio
import random
import subprocess
from collections.abc import Iterable, Iterator, Sequence
from pathlib import Path

from cryptography.hazmat.primitives.asymmetric.ed25519 import Ed25519PublicKey

from lib.seal import heads, merkle, signing
from shared.office_load import OfficeLoad
from shared.served_office import ServedOffice


def capture_replies_of_dam(dam: str | Path, records: Iterable[str], periods: int = 24) -> list[str]:
    text = "".join(f"{line}\n" for line in [f"day,{periods},,,,,,,", *records])
    ran = subprocess.run([dam, "replay"], input=text.encode(), capture_output=True, check=True)
    return [line.partition(",")[2] for line in ran.stdout.decode().splitlines()[1:]]


def faults_of_load(
    load: OfficeLoad, records: Sequence[str], replies: Sequence[str], key: Ed25519PublicKey, sample: int = 300
) -> Iterator[str]:
    """The faults of the acknowledged commands, compared with the journal and its replay: one lost, changed or entered twice, or a
    receipt that doesn't prove it."""
    own: dict[str, list[int]] = {}
    for number, line in enumerate(records, 1):
        own.setdefault(line.split(",")[1], []).append(number)
    seen = set()
    for who, number, receipt in load.acknowledged:
        entry = receipt["number"]
        if entry > len(records) or records[entry - 1] != receipt["record"] or replies[entry - 1] != receipt["reply"]:
            yield f"{who} {number}: entry {entry} isn't in the journal as acknowledged"
        elif own[who][number - 1] != entry or entry in seen:
            yield f"{who} {number}: entry {entry} is another command's"
        seen.add(entry)
    for _, _, receipt in random.Random("sample").sample(load.acknowledged, min(sample, len(load.acknowledged))):
        found = heads.parse_receipt(receipt)
        root = merkle.root_of_inclusion(found.leaf(), found.number - 1, found.head.size, found.path)
        if root != found.head.root or not signing.is_signed(key, found.head):
            yield f"the receipt of entry {found.number} proves nothing"


async def run_with_kills(office: ServedOffice, kills: int, count: int, seed: str) -> tuple[OfficeLoad, list[float]]:
    """A load in which the office, its desk or both are killed, and the office is started again. Returns it with the seconds of the
    starts."""
    load, starts, rng = OfficeLoad(office, seed), [], random.Random(seed)
    running = asyncio.create_task(load.send_all_and_return_seconds(count))
    for number in range(kills):
        await asyncio.sleep(rng.uniform(0.1, 0.6))
        parts = (("office",), ("desk",), ("office", "desk"))[number % 3]
        await asyncio.to_thread(office.kill, *parts)
        if "office" in parts:
            starts.append(await asyncio.to_thread(office.start_and_return_seconds))
        if running.done():
            break
    await running
    return load, starts
