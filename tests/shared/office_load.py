"""A load of an office: many connections, each of a participant that sends its commands one after the other, and waits for each receipt."""

import asyncio
import random
import statistics
import time

from dam_tools.office import AsyncOffice, OfficeFault
from lib.base.json_value import JsonObject
from shared.served_office import ServedOffice


def draw_record_and_change_live_names(rng: random.Random, who: str, number: int, live: list[str]) -> str:
    """A command of a participant; `live` are its orders."""
    what = rng.random()
    price, volumes = rng.randint(-500, 9_000), f"{rng.randint(1, 24)}:{rng.randint(1, 999)}"
    if what < 0.4 or not live:
        live.append(f"O-{number}")
        return f"submit,{who},{live[-1]},hour,{rng.choice(['buy', 'sell'])},{price},{volumes},,"
    if what < 0.8:
        return f"amend,{who},{rng.choice(live)},,,{price},{volumes},,"
    return f"cancel,{who},{live.pop(rng.randrange(len(live)))},,,,,,"


class OfficeLoad:
    """Commands, their receipts and the seconds that each took."""

    def __init__(self, office: ServedOffice, seed: str = "load") -> None:
        self.office, self.seed = office, seed
        self.acknowledged: list[tuple[str, int, JsonObject]] = []
        self.seconds: list[float] = []

    async def send_commands_and_keep_receipts(self, who: str, count: int, until: float) -> None:
        rng, live = random.Random(f"{self.seed} {who}"), list[str]()
        async with self.office.asynchronous_client_of(who) as client:
            for number in range(1, count + 1):
                line = draw_record_and_change_live_names(rng, who, number, live)
                began = time.perf_counter()
                if began > until:
                    return
                (receipt,) = await self.send_and_return_receipts(client, line)
                self.seconds.append(time.perf_counter() - began)
                assert receipt["record"] == line, receipt
                self.acknowledged.append((who, number, receipt))

    async def send_and_return_receipts(self, client: AsyncOffice, line: str) -> list[JsonObject]:
        """The receipts of commands, which are sent until these come: the office may be down for long."""
        while True:
            try:
                return await client.enter(self.office.day, line)
            except OfficeFault as fault:
                if fault.status not in (None, 503):
                    raise

    async def send_all_and_return_seconds(self, count: int, seconds: float = 600) -> float:
        """Sends that many commands of each participant, or as many as there is time for. Returns the seconds that it took."""
        began = time.perf_counter()
        await asyncio.gather(*(self.send_commands_and_keep_receipts(who, count, began + seconds) for who in self.office.who))
        return time.perf_counter() - began

    def summary_text(self, took: float) -> str:
        found = sorted(self.seconds)
        rate, middle, late = len(found) / took, statistics.median(found), found[int(len(found) * 0.99)]
        return f"{len(found)} commands, {rate:.0f} a second, median {middle * 1e3:.1f} ms, 99% within {late * 1e3:.1f} ms"
