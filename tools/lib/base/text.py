"""Records of comma-separated values, and the texts of numbers and names."""

from __future__ import annotations

import csv
import re
from collections.abc import Callable, Iterable, Iterator
from fractions import Fraction

from . import rules
from .json_value import Json, JsonObject

MARK = b"\xef\xbb\xbf"  # a byte order mark
LINE = re.compile(r"[^\r\n]+[\r\n]*|[\r\n]+")
LONG_LINE = 65_536  # characters; a line of a journal has fewer than 2,000
MANY_FIELDS = 10  # more than a record has
FIELDS = re.compile(rf'(?:(?:"[^"]*(?:""[^"]*)*"(?!")[^,]*|[^",][^,]*)?,){{{MANY_FIELDS}}}')
SURROGATE = re.compile("[\ud800-\udfff]")  # no character: it stands for a byte that isn't UTF-8
CONTROL = re.compile("[\0-\x1f\x7f-\x9f]")
NO_NUL = "\u0100"  # no byte: stands for the byte 0, which `csv` doesn't read before Python 3.11
# No number of a journal or of results has more digits than 18.
NUMBER = re.compile(rb"-?[1-9][0-9]{0,17}|0")
PARTICIPANT = re.compile(rb"[A-Z]{1,%d}" % rules.LONGEST_PARTICIPANT)
NAME = re.compile(rb"[A-Z0-9-]{1,%d}" % rules.LONGEST_NAME)
# Their names in messages.
A_PARTICIPANT = f"1 to {rules.LONGEST_PARTICIPANT} letters A to Z"
A_NAME = f"1 to {rules.LONGEST_NAME} of A to Z, 0 to 9 and -"


def records(text: bytes) -> Iterator[list[bytes]]:
    """The records of a text, each a list of fields. Empty lines are no records."""
    return (fields for _, fields in placed_records(text))


def placed_records(text: bytes, comma: bytes = b",") -> Iterator[tuple[int, list[bytes]]]:
    """The same, each with its offset in the text; also of a text whose fields are separated by something other than commas. A field whose
    quote isn't closed goes to the end of the text; the text after a closing quote belongs to the field. Of a long line with far too many
    fields, separated by commas, only the first ones are read."""
    begin = 0
    taken: list[int] = []
    set_field_limit(len(text))
    for fields in csv.reader(iterate_texts_and_append_lengths(csv_lines(text), taken), delimiter=comma.decode()):
        if fields:
            yield begin, [field.replace(NO_NUL, "\0").encode("latin-1") for field in fields]
        begin += sum(taken)
        taken.clear()


def iterate_texts_and_append_lengths(texts: Iterable[str], taken: list[int]) -> Iterator[str]:
    """The texts, of which the length is noted as soon as one is taken. A long one that begins a record is cut."""
    for text in texts:
        is_first = not taken
        taken.append(len(text))
        yield first_fields_text(text) if is_first and len(text) > LONG_LINE else text


def first_fields_text(line: str) -> str:
    """A long line without the fields after the first ones, if it has more."""
    if '"' not in line:
        return ",".join(line.split(",", MANY_FIELDS + 1)[: MANY_FIELDS + 1])
    found = FIELDS.match(line, 0, LONG_LINE)
    return found[0] if found else line


def count_lines(text: bytes, begin: int, end: int) -> int:
    """How many lines end in a part of a text: with a line feed, a carriage return, or both."""
    return text.count(b"\n", begin, end) + text.count(b"\r", begin, end) - text.count(b"\r\n", begin, end)


def set_field_limit(length: int) -> None:
    """Lets `csv` read fields of this length, in the whole process."""
    if length > csv.field_size_limit():
        csv.field_size_limit(length)


def csv_lines(text: bytes) -> Iterator[str]:
    """The lines of a text for `csv`, each with its end and the empty lines after it."""
    return (line[0] for line in LINE.finditer(text.decode("latin-1").replace("\0", NO_NUL)))


def place_of_open_quote(text: bytes, comma: bytes = b",") -> int | None:
    """Where a quote begins that isn't closed on its line; None if there is none."""
    begin = 0
    set_field_limit(len(text))
    for line in csv_lines(text):
        if '"' not in line:
            begin += len(line)
            continue
        reader = csv.reader([line, ""], delimiter=comma.decode())
        fields = next(reader)
        if reader.line_num == 2:  # an open quote took in the second text; in its field, each quote is doubled
            return begin + len(line) - len(fields[-1]) - fields[-1].count('"') - 1
        begin += len(line)
    return None


def number_or_none(text: bytes, least: int, greatest: int) -> int | None:
    """The number that a text is: decimal, without leading zeros, with a `-` if it is below zero. None for any other text."""
    if not NUMBER.fullmatch(text):
        return None
    value = int(text)
    return value if least <= value <= greatest else None


def price_or_none(text: bytes) -> int | None:
    return number_or_none(text, rules.LOWEST_PRICE, rules.HIGHEST_PRICE)


def volume_or_none(text: bytes) -> int | None:
    return number_or_none(text, 1, rules.GREATEST_VOLUME)


def volumes_or_none(text: bytes) -> tuple[tuple[int, int], ...] | None:
    """Pairs `period:volume`, separated by `;`, by increasing period. None for any other text."""
    pairs: list[tuple[int, int]] = []
    if text.count(b";") >= rules.GREATEST_PERIOD:
        return None
    for pair in text.split(b";"):
        before, colon, after = pair.partition(b":")
        period, volume = number_or_none(before, 1, rules.GREATEST_PERIOD), volume_or_none(after)
        if not colon or period is None or volume is None or pairs and period <= pairs[-1][0]:
            return None
        pairs.append((period, volume))
    return tuple(pairs)


def participant_or_none(text: bytes) -> str | None:
    return text.decode() if PARTICIPANT.fullmatch(text) else None


def name_or_none(text: bytes) -> str | None:
    return text.decode() if NAME.fullmatch(text) else None


def for_json(value: Json) -> Json:
    """A value as JSON that every reader takes: of a name of a file, the bytes that aren't UTF-8 are escaped, as in a message."""
    if isinstance(value, dict):
        return {for_json(key): for_json(held) for key, held in value.items()}
    if isinstance(value, (list, tuple)):
        return [for_json(held) for held in value]
    return SURROGATE.sub(lambda found: escaped(found[0]), value) if isinstance(value, str) else value


def require_unrepeated_members(fault_of: Callable[[str], Exception], pairs: Iterable[tuple[str, Json]]) -> JsonObject:
    """The object of these members of JSON, none of which comes twice: readers differ in which they would take. `fault_of` makes the
    exception of the name of one that does."""
    members = {}
    for name, value in pairs:
        if name in members:
            raise fault_of(name)
        members[name] = value
    return members


MOST_SHOWN = 80  # characters of a stranger's text in a message


def escaped(words: str) -> str:
    """A text of which each character that isn't printable is escaped, such as an escape or a line end. Of a text with bytes that aren't
    UTF-8, as names of files may have, these bytes are."""

    def shown(character: str) -> str:
        if character.isprintable():
            return character
        at = ord(character)
        return f"\\x{at - 0xDC00:02x}" if 0xDC80 <= at <= 0xDCFF else character.encode("unicode_escape", "surrogatepass").decode()

    return words if words.isprintable() else "".join(map(shown, words))


def shortened_and_length_text(words: str | bytes, most: int) -> tuple[str, str]:
    """The beginning of a stranger's text or bytes, as it may be printed, and how long the whole is if that is longer."""
    words = words.decode(errors="surrogateescape") if isinstance(words, bytes) else words
    return escaped(words[:most]), f" ({len(words):,} characters)" if len(words) > most else ""


def safe(words: str | bytes, most: int = MOST_SHOWN) -> str:
    """A stranger's text or bytes in a message: on one line, with nothing that a terminal would obey, and cut, with its length said."""
    shown, length = shortened_and_length_text(words, most)
    return f"{shown}..{length}" if length else shown


def quoted(words: str | bytes, most: int = MOST_SHOWN) -> str:
    """The same in quotes."""
    shown, length = shortened_and_length_text(words, most)
    return f"'{shown}..'{length}" if length else f"'{shown}'"


def counted(count: int, one: str, several: str | None = None) -> str:
    """A number of things, such as `1 block` or `2 blocks`."""
    return f"{count} {one if count == 1 else several or one + 's'}"


def fixed_point(value: int | Fraction, digits: int, thousands: str = "") -> str:
    """A number with this many digits after the point, which it must not exceed."""
    whole, rest = divmod(abs(value) * 10**digits, 10**digits)
    if rest != int(rest):
        raise ValueError(f"{value} has more than {digits} digits")
    sign = "-" if value < 0 else ""
    point = f".{int(rest):0{digits}d}" if digits else ""
    return f"{sign}{whole:,}".replace(",", thousands) + point


def trimmed(number: str) -> str:
    """A number without the zeros after the second digit of its fraction."""
    whole, _, digits = number.partition(".")
    return f"{whole}.{digits[:2]}{digits[2:].rstrip('0')}"


def grouped(number: str) -> str:
    """An exact amount such as `-1234.500` for readers: with commas between thousands, and no zeros after its second digit."""
    whole, _, digits = trimmed(number).partition(".")
    sign = "-" if whole.startswith("-") else ""
    return f"{sign}{abs(int(whole)):,}.{digits}"


def eur_per_mwh(price: int, thousands: str = "") -> str:
    return fixed_point(Fraction(price, 100), 2, thousands)


def mw(volume: int, thousands: str = "") -> str:
    return fixed_point(Fraction(volume, 10), 1, thousands)


def eur(amount: int | Fraction, hours: Fraction, thousands: str = ",") -> str:
    """An amount in cents per MWh times tenths of a MW, over periods of this many hours, in EUR: with as many digits as it may have."""
    return fixed_point(Fraction(amount) * hours / 1_000, 3 if hours == 1 else 5, thousands)


def exact_eur(amount: int | Fraction, hours: Fraction) -> str:
    """An amount as `eur` takes it, for readers: in EUR, exactly, with at least two digits and no zeros after these."""
    return trimmed(eur(amount, hours))


THOUSANDS = ","  # between thousands, for readers


def shown(value: int | Fraction, digits: int, thousands: str = THOUSANDS) -> str:
    """A number for readers, rounded to this many digits after the point. A number that would round to 0 and isn't 0 has more."""
    value = Fraction(value)
    scaled = int(abs(value) * 10**digits + Fraction(1, 2))
    if value and not scaled:
        return shown(value, digits + 1, thousands)
    return fixed_point(Fraction(scaled if value > 0 else -scaled, 10**digits), digits, thousands)


def shown_price(cents: int | Fraction) -> str:
    """A price for readers: in EUR/MWh with two digits."""
    return shown(Fraction(cents, 100), 2)


def shown_volume(tenths: int | Fraction) -> str:
    """A volume for readers: in MW with one digit."""
    return shown(Fraction(tenths, 10), 1)


def amount(value: int | Fraction, hours: Fraction, thousands: str = THOUSANDS) -> str:
    """An amount as `eur` takes it, for readers: in EUR with two digits."""
    return shown(Fraction(value) * hours / 1_000, 2, thousands)


def energy(tenths: int | Fraction, hours: Fraction, thousands: str = ",") -> str:
    """A sum of tenths of a MW, over periods of this many hours, in MWh: with as many digits as it may have."""
    return fixed_point(Fraction(tenths) * hours / 10, 1 if hours == 1 else 3, thousands)
