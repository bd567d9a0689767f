"""Random journals: days with hourly orders, blocks, links and groups, drawn so that prices and volumes meet, tie or reach
their limits, with commands that the book refuses among them. All by docs/FORMATS.md, as lines of text."""

import random
from collections.abc import Callable, Iterable

from lib.base import rules

Source = Callable[[], int]  # of limit prices, or of volumes
PARTICIPANTS = ["A", "B", "NORD", "STADTWKE"]
LIMITS = [rules.LOWEST_PRICE, rules.LOWEST_PRICE + 1, -1, 0, 1, rules.HIGHEST_PRICE - 1, rules.HIGHEST_PRICE]


def draw_price_source(rng: random.Random) -> Source:
    """The generator of limit prices."""
    kind = rng.randrange(6)
    if kind == 0:
        return lambda: rng.randint(rules.LOWEST_PRICE, rules.HIGHEST_PRICE)
    if kind == 1:
        return lambda: rng.choice(LIMITS)
    if kind == 2:
        return lambda: rng.randint(-4, 4)
    if kind == 3:
        few = [rng.randint(rules.LOWEST_PRICE, rules.HIGHEST_PRICE) for _ in range(rng.randint(1, 3))]
        return lambda: rng.choice(few)
    middle = rng.randint(-1_000, 12_000)
    step = rng.choice([1, 50, 400])
    return lambda: middle + step * rng.randint(-5, 5)


def draw_volume_source(rng: random.Random) -> Source:
    """The generator of volumes."""
    kind = rng.randrange(5)
    if kind == 0:
        return lambda: rng.choice([1, rules.GREATEST_VOLUME - 1, rules.GREATEST_VOLUME])
    if kind == 1:
        return lambda: 10
    if kind == 2:
        return lambda: rng.randint(1, rules.GREATEST_VOLUME)
    most = rng.choice([2, 5, 200])
    return lambda: rng.randint(1, most)


def periods_by_hour(periods: int) -> list[list[int]]:
    """The hours of a day, each with its periods."""
    parts = rules.DAYS[periods].denominator
    return [list(range(first, first + parts)) for first in range(1, periods + 1, parts)]


class Profiles:
    """Draws the volumes of a day's blocks, as a number for each period, as users have them: over the whole day, its peak or its night, by
    one shape, by the hour, or in each period. Many periods have the same volumes then, some of them by chance, and some all but one."""

    def __init__(self, rng: random.Random, periods: int, volume: Source) -> None:
        self.rng, self.volume = rng, volume
        self.hours = periods_by_hour(periods)
        self.sizes = [volume() for _ in range(rng.choice([1, 2, 4, 30]))]
        self.shape = {hour: rng.randint(1, 3) for hour in range(len(self.hours))}
        every = [self.draw_base, self.draw_peak, self.draw_night, self.draw_span, self.draw_shaped, self.draw_by_hour, self.draw_by_period]
        usual = [self.draw_base, self.draw_peak, self.draw_night]
        self.kinds = rng.choice([[self.draw_base], usual, [self.draw_shaped], rng.sample(every, 2), every])
        self.change = rng.choice([0, 0, 0.2, 0.6])

    def draw(self) -> dict[int, int]:
        """A profile, and now and then one that differs from it in one period."""
        volumes = self.rng.choice(self.kinds)()
        if len(volumes) > 1 and self.rng.random() < self.change:
            period = self.rng.choice(list(volumes))
            del volumes[period]
            if self.rng.random() < 0.6:
                volumes[period] = self.volume()
        return volumes

    def draw_size(self) -> int:
        return self.rng.choice(self.sizes)

    def draw_flat(self, hours: Iterable[int]) -> dict[int, int]:
        size = self.draw_size()
        return {period: size for hour in hours for period in self.hours[hour]}

    def draw_base(self) -> dict[int, int]:
        return self.draw_flat(range(len(self.hours)))

    def draw_peak(self) -> dict[int, int]:
        return self.draw_flat(range(8, 20))

    def draw_night(self) -> dict[int, int]:
        return self.draw_flat([hour for hour in range(len(self.hours)) if not 8 <= hour < 20])

    def draw_span(self) -> dict[int, int]:
        first, last = sorted(self.rng.sample(range(len(self.hours) + 1), 2))
        return self.draw_flat(range(first, last))

    def draw_shaped(self) -> dict[int, int]:
        """One shape in several sizes; at the limit of a volume its top is flat."""
        size = self.draw_size()
        return {period: min(size * self.shape[hour], rules.GREATEST_VOLUME) for hour, own in enumerate(self.hours) for period in own}

    def draw_by_hour(self) -> dict[int, int]:
        return {period: volume for hour in range(len(self.hours)) for period, volume in self.draw_flat([hour]).items()}

    def draw_by_period(self) -> dict[int, int]:
        return {period: self.volume() for own in self.hours for period in own}


class Draft:
    """The lines of a day in the making, and the state that the next ones are drawn from."""

    def __init__(self, rng: random.Random, with_profiles: bool | None = None) -> None:
        """With profiles, or without; or else by chance."""
        self.rng = rng
        self.periods = rng.choice(list(rules.DAYS))
        self.price, self.volume = draw_price_source(rng), draw_volume_source(rng)
        self.block_price, self.block_volume = self.price, self.volume
        few = rng.sample(range(1, self.periods + 1), rng.choice([1, 1, 2, 3]))
        self.active = few if rng.random() < 0.85 else list(range(1, self.periods + 1))
        self.hourly = rng.choice([0, 1, 2, 3, 4, 6, 9, 15, 40])
        if rng.random() < 0.4:
            self.set_meeting_prices()
        self.participants = PARTICIPANTS[: rng.choice([1, 2, 4])]
        self.named: list[tuple[str, str]] = []  # participants and names that were submitted
        self.numbers = dict.fromkeys(PARTICIPANTS, 0)  # of each participant, how many of these
        self.blocks: list[tuple[str, str]] = []  # of these, the blocks
        self.links, self.groups = rng.choice([0, 0.3, 0.8, 0.9]), rng.choice([0, 0, 0.3, 0.8])
        self.lines = [f"day,{self.periods},,,,,,,"]
        self.profiles: Profiles | None = None
        if rng.random() < 0.1 if with_profiles is None else with_profiles:
            self.set_trade_everywhere()

    def set_meeting_prices(self) -> None:
        """Many small orders at similar prices in few periods, and smaller blocks: there are many ways to accept them, and some would
        lose in the selection of greatest welfare."""
        rng = self.rng
        middle, most = rng.randint(2_000, 9_000), rng.choice([10, 60])
        self.price = self.block_price = lambda: middle + 50 * rng.randint(-6, 6)
        self.volume, self.block_volume = (lambda: rng.randint(1, most)), (lambda: rng.randint(1, 1 + most // 3))
        self.active = self.active[:2]
        self.hourly = rng.randint(5, 16)

    def set_trade_everywhere(self) -> None:
        """Orders in all periods, or nearly all, and blocks with profiles as users have them, some of them too large to balance."""
        rng = self.rng
        market = rng.choice(["deep"] * 8 + ["thin"] * 4 + ["wide"] * 2 + [""] * 4)
        if market == "deep":
            self.set_prices_around(rng.choice([5, 50, 500]), rng.choice([0, 1, 10, 100, 500]))
            self.volume, self.block_volume = (lambda: rng.randint(2, 60)), (lambda: rng.randint(1, 4))
        elif market == "thin":  # a block moves the prices, so that many would lose
            self.set_prices_around(300, rng.choice([0, 20, 100]))
            self.volume, self.block_volume = (lambda: rng.randint(20, 60)), (lambda: rng.randint(1, 15))
        elif market == "wide":  # one price, and blocks with limits near it: many selections have equal welfare, or nearly
            self.set_prices_around(0, rng.choice([0, 1, 50]))
            self.volume, self.block_volume = (lambda: rng.randint(50, 200)), (lambda: rng.randint(1, 30))
        self.active = list(range(1, self.periods + 1))
        idle, pairs = rng.choice([0] * 7 + [1, self.periods // 2, self.periods]), rng.choice([1, 2, 4])
        for period in rng.sample(self.active, self.periods - idle):
            for side in ["buy", "sell"] * pairs:
                self.add_hour_of(*self.take_next_name("H"), side, period)
        self.hourly = rng.choice([0, 5, self.periods])
        self.profiles = Profiles(rng, self.periods, self.block_volume)
        if market == "wide":
            self.profiles.kinds = [self.profiles.draw_by_period]

    def set_prices_around(self, far: int, near: int) -> None:
        """Limits that differ from one price by these amounts at most, those of hourly orders and of blocks."""
        rng, middle = self.rng, self.rng.randint(2_000, 9_000)
        self.price, self.block_price = (lambda: middle + rng.randint(-far, far)), (lambda: middle + rng.randint(-near, near))

    def draw_name(self, prefix: str) -> tuple[str, str]:
        """A name that may be taken, now and then by the participant itself."""
        if self.named and self.rng.random() < 0.04:
            return self.rng.choice(self.named)
        return self.take_next_name(prefix)

    def take_next_name(self, prefix: str) -> tuple[str, str]:
        who = self.rng.choice(self.participants)
        # A number of the participant's own: others have orders of the same names.
        return who, f"{prefix}{1 + self.numbers[who]}"

    def note_name(self, who: str, name: str) -> None:
        self.named.append((who, name))
        self.numbers[who] += 1

    def draw_late_period(self) -> int:
        """A period that the day may not have."""
        least = self.rng.choice([self.periods, min(rules.DAYS)])
        return self.rng.randint(least, rules.GREATEST_PERIOD)

    def draw_period(self) -> int:
        if self.rng.random() < 0.01:
            return self.draw_late_period()
        return self.rng.choice(self.active)

    def draw_profile(self) -> str:
        """The volumes of a block."""
        if self.profiles and self.rng.random() < 0.9:
            return ";".join(f"{period}:{volume}" for period, volume in sorted(self.profiles.draw().items()))
        most = len(self.active)
        periods = set(self.rng.sample(self.active, self.rng.randint(1, most)))
        if self.rng.random() < 0.02:
            periods.add(self.draw_late_period())
        same = self.block_volume() if self.rng.random() < 0.5 else None
        return ";".join(f"{period}:{same or self.block_volume()}" for period in sorted(periods))

    def add_hour(self) -> None:
        who, name = self.draw_name("H")
        side = self.rng.choice(["buy", "sell"])
        self.add_hour_of(who, name, side, self.draw_period())

    def add_hour_of(self, who: str, name: str, side: str, period: int) -> None:
        self.lines.append(f"submit,{who},{name},hour,{side},{self.price()},{period}:{self.volume()},,")
        self.note_name(who, name)

    def draw_limit(self, side: str, child: str) -> int:
        """The limit of a block. A child's may be the best of several, so that the child gains while its parent loses; and with profiles
        a block's is the best of a few, since it has to gain over many periods."""
        count = 4 if child and self.rng.random() < 0.6 else self.rng.randint(1, 3) if self.profiles else 1
        drawn = [self.block_price() for _ in range(count)]
        return max(drawn) if side == "buy" else min(drawn)

    def add_block(self) -> None:
        who, name = self.draw_name("K")
        parent = group = ""
        own = [other for owner, other in self.blocks if owner == who]
        if own and self.rng.random() < self.links:
            parent = own[-1] if self.rng.random() < 0.5 else self.rng.choice(own)
        elif self.named and self.rng.random() < 0.03:
            parent = self.rng.choice(self.named)[1]
        if self.rng.random() < self.groups:
            group = self.rng.choice("XY")
        side = self.rng.choice(["buy", "sell", "sell"])
        limit = self.draw_limit(side, parent)
        self.lines.append(f"submit,{who},{name},block,{side},{limit},{self.draw_profile()},{parent},{group}")
        self.note_name(who, name)
        self.blocks.append((who, name))

    def draw_taken_name(self) -> tuple[str, str]:
        if self.named and self.rng.random() < 0.9:
            return self.rng.choice(self.named)
        return self.rng.choice(self.participants), "NEVER"

    def add_amend(self) -> None:
        who, name = self.draw_taken_name()
        volumes = self.draw_profile() if self.rng.random() < 0.5 else f"{self.draw_period()}:{self.volume()}"
        self.lines.append(f"amend,{who},{name},,,{self.price()},{volumes},,")

    def add_cancel(self) -> None:
        who, name = self.draw_taken_name()
        self.lines.append(f"cancel,{who},{name},,,,,,")


def add_mixed(draft: Draft, hourly: int, blocks: int) -> None:
    """Submits in any order, with amends and cancels among them."""
    rng = draft.rng
    submits = [draft.add_hour] * hourly + [draft.add_block] * blocks
    rng.shuffle(submits)
    changes = rng.choice([0, 0, 0.1, 0.4])
    for submit in submits:
        submit()
        if rng.random() < changes:
            rng.choice([draft.add_amend, draft.add_cancel])()


def add_full(draft: Draft) -> None:
    """A book at its limits, or a journal at its limit of records: for replays alone."""
    rng = draft.rng
    kind = rng.randrange(6)
    if kind == 0:
        add_mixed(draft, rng.randint(3_990, 4_100), rng.randint(0, 30))
    elif kind > 1:
        add_mixed(draft, rng.randint(0, 5), rng.randint(22, 40))
    else:
        draft.lines += ["close,,,,,,,,"] * rng.randint(9_995, 10_005)


def draw_day_with_profiles(rng: random.Random, blocks: int) -> bytes:
    """A closed day with this number of blocks, most of them with profiles as users have them."""
    draft = Draft(rng, with_profiles=True)
    add_mixed(draft, draft.hourly, blocks)
    return text_of_lines([*draft.lines, "close,,,,,,,,"])


def draw_lines(rng: random.Random, most_blocks: int, closing: bool = True) -> list[str]:
    """The lines of a random day."""
    draft = Draft(rng)
    if rng.random() < 0.004:
        add_full(draft)
    else:
        add_mixed(draft, draft.hourly, rng.choice([0, 1, 1, 2, 2, 3, 4, 5, most_blocks]))
    if not closing:
        return draft.lines
    if rng.random() < 0.97:
        draft.lines.append("close,,,,,,,,")
    if rng.random() < 0.05:
        draft.lines.insert(rng.randint(1, len(draft.lines)), "close,,,,,,,,")
    return draft.lines


def draw_text(rng: random.Random, most_blocks: int, closing: bool = True) -> bytes:
    return text_of_lines(draw_lines(rng, most_blocks, closing))


def text_of_lines(lines: Iterable[str]) -> bytes:
    """The text of these lines."""
    return "".join(f"{line}\n" for line in lines).encode()
