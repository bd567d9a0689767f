#!/usr/bin/env python3
"""Prints the journal of a sunny spring day. It has some 40 orders in each hour, from water and wind to oil; a morning and an evening
peak; a noon when sun and wind press the price below zero; and twelve blocks: a family, a group, a battery, a profile, and one that is
paradoxically rejected. All volumes below are in MW and all prices in EUR/MWh; the journal has tenths of a MW and cents."""

HOURS = range(1, 25)

# The volume that the town buys in each hour, and the volumes expected from wind and sun.
LOAD = [3020, 2880, 2790, 2750, 2810, 2990, 3440, 3990, 4180, 4050, 3830, 3640]
LOAD += [3500, 3390, 3400, 3560, 3860, 4210, 4480, 4520, 4310, 3930, 3560, 3210]
WIND = [1130, 1180, 1210, 1190, 1140, 1080, 1010, 960, 940, 970, 1040, 1110]
WIND += [1160, 1190, 1170, 1110, 1020, 910, 820, 780, 810, 880, 960, 1040]
SUN = [0, 0, 0, 0, 0, 20, 210, 760, 1530, 2340, 3060, 3580]
SUN += [3790, 3610, 3090, 2280, 1330, 470, 60, 0, 0, 0, 0, 0]

# The merit order: participant, name, limit and volume of each step that is offered in all hours. Plants that have to run, for heat or
# water, pay for it.
PLANTS = [
    ("HYDRO", "RIVER-A", -40, 260),
    ("HYDRO", "RIVER-B", 2, 240),
    ("HYDRO", "RIVER-C", 9, 150),
    ("COAL", "LIGNITE-A", -25, 180),
    ("COAL", "LIGNITE-B", 31, 150),
    ("COAL", "LIGNITE-C", 38, 140),
    ("COAL", "HARD-A", 58, 130),
    ("COAL", "HARD-B", 63, 120),
    ("COAL", "HARD-C", 71, 110),
    ("GAS", "HEAT-A", -8, 110),
    ("GAS", "HEAT-B", 44, 100),
    ("GAS", "CC-A", 67, 120),
    ("GAS", "CC-B", 74, 120),
    ("GAS", "CC-C", 77, 110),
    ("GAS", "CC-D", 82, 110),
    ("GAS", "CC-E", 86, 100),
    ("GAS", "CC-F", 91, 100),
    ("GAS", "CC-G", 95, 90),
    ("GAS", "OPEN-A", 118, 80),
    ("GAS", "OPEN-B", 127, 80),
    ("GAS", "OPEN-C", 139, 70),
    ("OIL", "JET-A", 168, 60),
    ("OIL", "JET-B", 187, 60),
    ("OIL", "DIESEL-A", 214, 50),
    ("OIL", "DIESEL-B", 246, 50),
]

# The wind farms and solar parks: name, limit, and share of the expected volume, in per cent. Some are subsidised for what they feed in, and
# ask less than nothing.
FARMS = [("COAST", -55, 35), ("PLAIN", -12, 40), ("RIDGE", 1, 25)]
PARKS = [("ROOF", -60, 45), ("FIELD", -18, 35), ("DAM", 0, 20)]

# The orders of industry: name, limit, volume and hours.
WORKS = [
    ("FOUNDRY", 132, 90, range(7, 20)),
    ("MILL", 104, 110, HOURS),
    ("CEMENT", 84, 120, HOURS),
    ("COLD", 61, 80, HOURS),
    ("CHLORINE", 47, 150, HOURS),
    ("PAPER", 33, 100, HOURS),
    ("BOILER-A", 12, 160, HOURS),
    ("BOILER-B", -5, 220, HOURS),
    ("BOILER-C", -22, 260, HOURS),
]

# The blocks: participant, name, side, limit, volumes by hour, parent and group.
BLOCKS = [
    ("COAL", "BASE", "sell", 34, {hour: 300 for hour in HOURS}, "", ""),
    ("COAL", "PEAK", "sell", 68, {hour: 160 for hour in range(7, 22)}, "", ""),
    ("GAS", "START", "sell", 104, {7: 120, 8: 160, 9: 160, 10: 80}, "", ""),
    ("GAS", "STAY", "sell", 45, {hour: 20 for hour in range(11, 17)}, "START", ""),
    ("GAS", "EVENING", "sell", 81, {17: 80, 18: 160, 19: 200, 20: 200, 21: 200, 22: 160}, "STAY", ""),
    ("HYDRO", "NIGHT", "buy", 41, {hour: 180 for hour in range(1, 6)}, "", "FILL"),
    ("HYDRO", "NOON", "buy", 36, {hour: 240 for hour in range(11, 16)}, "", "FILL"),
    ("HYDRO", "LONG", "buy", 22, {hour: 140 for hour in range(10, 18)}, "", "FILL"),
    ("HYDRO", "TURBINE", "sell", 92, {17: 60, 18: 140, 19: 220, 20: 240, 21: 160, 22: 80}, "", ""),
    ("OIL", "CHARGE", "buy", 25, {12: 100, 13: 120, 14: 100}, "", ""),
    ("OIL", "RELEASE", "sell", 96, {19: 90, 20: 110, 21: 80}, "CHARGE", ""),
    ("COAL", "UNIT-7", "sell", 130, {19: 320, 20: 320, 21: 320, 22: 320}, "", ""),
]


def record(*fields):
    return ",".join([*map(str, fields), *[""] * (9 - len(fields))])


def hourly(who, name, side, limit, hour, volume):
    """An hourly order, if there is a volume."""
    if round(10 * volume) > 0:
        yield record("submit", who, f"{name}-{hour}", "hour", side, round(100 * limit), f"{hour}:{round(10 * volume)}")


def orders():
    for hour in HOURS:
        yield from hourly("STAD", "LOAD", "buy", 3000, hour, LOAD[hour - 1] * 0.94)
        yield from hourly("STAD", "SAVING", "buy", 198 + hour % 5, hour, LOAD[hour - 1] * 0.06)
        for name, limit, volume, hours in WORKS:
            if hour in hours:
                yield from hourly("STEEL", name, "buy", limit, hour, volume)
    for hour in HOURS:
        for who, farms, expected in (("NORD", FARMS, WIND), ("SOL", PARKS, SUN)):
            for name, limit, share in farms:
                yield from hourly(who, name, "sell", limit, hour, expected[hour - 1] * share / 100)
        for who, name, limit, volume in PLANTS:
            # a plant gets a little cheaper after some hours, and gas costs more in the evening
            drift = (0.75 if hour > 16 and who == "GAS" else 0) - 0.05 * (hour % 6)
            yield from hourly(who, name, "sell", limit + drift, hour, volume)


def blocks():
    for who, name, side, limit, volumes, parent, group in BLOCKS:
        pairs = ";".join(f"{hour}:{10 * volume}" for hour, volume in volumes.items())
        yield record("submit", who, name, "block", side, 100 * limit, pairs, parent, group)


def journal():
    yield record("day", 24)
    yield from orders()
    yield from blocks()
    # a cloudier forecast for hour 10, a foundry that stands still in hour 17, and a block that can't be cancelled, since it has a child
    yield record("amend", "SOL", "FIELD-10", "", "", -1800, "10:5100")
    yield record("cancel", "STEEL", "FOUNDRY-17")
    yield record("cancel", "GAS", "START")
    yield record("close")


if __name__ == "__main__":
    for line in journal():
        print(line)
