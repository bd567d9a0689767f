"""How much participants and addresses may ask of an office, each from a bucket that fills again."""

import ipaddress
import time
from collections.abc import Callable

from aiohttp import web

from .connections import handler_of
from .refusals import RequestFault, Refused

COMMANDS_A_SECOND, MOST_COMMANDS = 200, 2_000  # of a participant; many bytes count as several
BYTES_OF_COMMAND = 100
READS_A_SECOND, MOST_READS = 50, 200  # of a participant
GUESSES_A_SECOND, MOST_GUESSES = 1, 20  # wrong tokens of an address
LOOKS_A_SECOND, MOST_LOOKS = 200, 2_000  # requests of an address for public paths
RECEIPTS_OF_READ, COMMANDS_OF_READ, ORDERS_OF_READ, READS_OF_TABLE = 20, 200, 100, 100  # how much of an answer counts as one read
BYTES_OF_READ = 10_000
DAYS_OF_LOOK = 5
MOST_BUCKETS = 10_000
NETWORK = 64  # bits of an IPv6 address that all addresses of one connection to the network have


def address_or_network(address: str | None) -> str | None:
    """The name of an address for limits: of IPv6 that of its network, since one stranger has all addresses of that."""
    if not address or ":" not in address:
        return address
    return str(ipaddress.IPv6Network((address.partition("%")[0], NETWORK), strict=False))


class Buckets:
    """Limits how often: each name has a bucket of tokens, which fills at a rate and holds at most `most`."""

    def __init__(self, rate: float, most: float, now: Callable[[], float]) -> None:
        self.rate, self.most, self.now = rate, most, now
        self.held: dict[str | None, tuple[float, float]] = {}  # the tokens of a bucket, and when they were counted

    def calls_left(self, name: str | None) -> float:
        tokens, at = self.held.get(name, (self.most, self.now()))
        return min(self.most, tokens + (self.now() - at) * self.rate)

    def charge(self, name: str | None, count: int) -> None:
        """Takes tokens, also if there aren't as many: the bucket is in debt then."""
        self.held[name] = self.calls_left(name) - count, self.now()

    def charge_or_return_seconds(self, name: str | None, count: int = 1) -> float:
        """Takes tokens, if there is one; the bucket may be in debt afterwards. Returns the seconds until it isn't, or 0."""
        if len(self.held) >= MOST_BUCKETS:
            self.held = {other: bucket for other, bucket in self.held.items() if self.calls_left(other) < self.most}
        left = self.calls_left(name)
        if left < 1:
            return (1 - left) / self.rate
        self.charge(name, count)
        return 0


class Budgets:
    """The buckets of an office. Behind a proxy, which limits addresses, those of addresses aren't charged."""

    def __init__(self, behind_proxy: bool) -> None:
        self.behind_proxy = behind_proxy
        self.commands = Buckets(COMMANDS_A_SECOND, MOST_COMMANDS, time.monotonic)
        self.reads = Buckets(READS_A_SECOND, MOST_READS, time.monotonic)
        self.guesses = Buckets(GUESSES_A_SECOND, MOST_GUESSES, time.monotonic)
        self.looks = Buckets(LOOKS_A_SECOND, MOST_LOOKS, time.monotonic)

    def charge_bytes(self, who: str, length: int) -> None:
        """An answer of a participant's own data is charged by its length."""
        self.reads.charge(who, length // BYTES_OF_READ)

    def charge_days(self, request: web.Request, count: int) -> None:
        """An answer about all days counts as several."""
        if not self.behind_proxy:
            self.looks.charge(address_or_network(request.remote), count // DAYS_OF_LOOK)

    def charge_look_or_refuse(self, request: web.Request) -> None:
        """Charges the address of a request for a public path, or refuses it; other requests are charged to participants."""
        if "who" not in request.match_info:
            self.charge_address_or_refuse(self.looks, request, "too many requests")

    def charge_guess_or_refuse(self, request: web.Request) -> None:
        self.charge_address_or_refuse(self.guesses, request, "too many wrong tokens")

    def charge_address_or_refuse(self, buckets: Buckets, request: web.Request, words: str) -> None:
        if not self.behind_proxy and (seconds := buckets.charge_or_return_seconds(address_or_network(request.remote))):
            handler_of(request).is_deaf = True  # else the rest of many requests at once would be read too
            raise Refused(RequestFault.TOO_FAST, words, seconds=seconds)


def charge_or_refuse(buckets: Buckets, who: str, count: int) -> None:
    """Charges a participant's request, or refuses it."""
    if seconds := buckets.charge_or_return_seconds(who, count):
        raise Refused(RequestFault.TOO_FAST, "too many requests", seconds=seconds)
