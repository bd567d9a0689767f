"""The limits of the market and of its formats, which blocks make up for a loss of another, and which price a period has. A later rule
changes them here, and the other modules take them from here."""

from __future__ import annotations

from fractions import Fraction

# The version of these rules, and of everything that follows them: other rules are a new major version (docs/USING.md, CHANGELOG.md).
VERSION = "1.0.0"

# The periods that a delivery day may have, and the length of one in hours: hours or their quarters, of 24 hours, or of one less or
# more where the clocks change.
HOURS = (23, 24, 25)
DAYS = {hours * parts: Fraction(1, parts) for parts in (1, 4) for hours in HOURS}
GREATEST_PERIOD = max(DAYS)

LOWEST_PRICE, HIGHEST_PRICE = -50_000, 400_000  # cents per MWh
GREATEST_VOLUME = 99_999  # tenths of a MW, of one order in one period
LONGEST_PARTICIPANT, LONGEST_NAME = 8, 12  # characters

MOST_HOURLY, MOST_BLOCKS = 4_000, 24  # orders in a book
MOST_OF_GROUP = 1  # accepted blocks of an exclusive group
MOST_BYTES, MOST_RECORDS = 16_777_216, 10_001  # of a journal
MOST_DAY_COMMANDS, MOST_DAY_PARTICIPANTS = 9_999, 8  # of the input of `dam day`


def price_and_case(low: int, high: int) -> tuple[int, str]:
    """The price of a period whose supporting prices go from `low` to `high`, and which case of the rule it is."""
    if low == LOWEST_PRICE and high < HIGHEST_PRICE:
        return high, "the greatest, since the least is the limit"
    if low > LOWEST_PRICE and high == HIGHEST_PRICE:
        return low, "the least, since the greatest is the limit"
    return (low + high) // 2, "half of the sum, rounded down"
