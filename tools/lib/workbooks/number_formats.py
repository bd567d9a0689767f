"""The codes of number formats: how each shows numbers, and whether it shows texts in another way."""

import decimal
import functools
import re
import unicodedata
from collections.abc import Callable, Iterable
from fractions import Fraction
from typing import NamedTuple

from .cells import Changed, Date, Formatted, Percentage, Power, Price, Rounded, Shortened, Worded

Shown = Callable[[int | str], str]  # from a number to the text of its cell
Pieces = list[str]  # of a section of a format
Number = decimal.Decimal | Fraction | int
Rounding = Callable[[decimal.Decimal], Number | None]
GENERAL_CODES = ("general", "@")
MOST_DIGITS = 11  # that Excel shows of a number in the format General
MOST_FRACTIONS, FEW_BELOW = 20_000, 2  # numbers that are rounded to fractions of many digits, and digits that aren't many
MOST_BELOW = 15  # digits that Excel keeps of a number, and so those of a denominator that count
PIECE = re.compile(r'"[^"]*"|\\.|_.|\*.|\[[^\]\[]*\]|(?i:general)|[Ee][+-]|.', re.DOTALL)  # of a format
GENERAL = "\1"  # in place of the piece General
DIGIT = f"[0#?{GENERAL}]"  # a place of digits
DIGITS = re.compile(f"{DIGIT}(?:.*{DIGIT})?", re.DOTALL)
UNSEEN = re.compile(r"_.|\* |[ \n]|\[(?:\$(?:-.*)?|[^$].*)?\]", re.DOTALL)  # a piece that adds no character
WHITE = re.compile(r"\[(?:white|color *0*2)\]", re.IGNORECASE)  # a piece that hides the value of its section
SEPARATORS = " '\u00a0\u202f"  # of thousands, besides the comma
# The places of digits that show one number: a separator stands only before three digits of its whole part, or a space before a fraction.
WHOLE = f"(?:[0#?,]*|[0#?]+(?:[{SEPARATORS}][0#?]{{3}})+)"
ONE_NUMBER = re.compile(f"{GENERAL}|{WHOLE}(?:[.E][0#?.,E]*)?|(?:{WHOLE}[ \u00a0\u202f])?[0#?]+/[0#?]+")
POINTS = ".,\u00b7\u066b\u066c\u3001\u3002"  # and commas, in one width, of all scripts
MINUS = re.compile(r"\b(?:MINUS|HYPHEN|DASH)\b")  # in the name of a character
OTHER_MINUSES = "\u25b2\u25b3\u2500"  # the triangles of Japanese tables, and a line that looks like a minus
REVERSED = "\u202e"  # the characters after it are shown from right to left
# The words that a format may add to a number of each kind, a unit of orders or none, between signs, of which others decide, and separators.
UNITS = {
    Formatted: re.compile(""),
    Price: re.compile(r"(?:(?i:EUR(?:OS?)?)|\u20ac)?(?: ?(?:[-/.]|(?i:per)) ?MWh)?"),
    Power: re.compile("(?:MW)?"),
}
SIGNS = f"-()+*{SEPARATORS}"
LETTER, OTHER = r"[^\W\d_]", r"[\W\d_]"
IN_BRACKETS = re.compile(r"\([^()]*\)")
# A sign in words before or after a number: a bracket, or a minus that doesn't join words.
SIGN_BEFORE = re.compile(rf"[()]|^{OTHER}*-|-{OTHER}*$|(?<!{LETTER})-(?={LETTER})")
SIGN_AFTER = re.compile(rf"[()]|^{OTHER}*-(?!{LETTER})|-{OTHER}*$")
# The parts of a format that aren't of a date: texts, and a condition or colour.
NO_DATE = re.compile(r'"[^"]*"|\\.|_.|\*.|\[(?!(?:h+|m+|s+)\])[^\]\[]*\]', re.IGNORECASE)


def general_text(number: int | str) -> str:
    """The text of a number that has no format, or that of texts."""
    words = str(number)
    return Shortened(words) if sum(map(str.isdigit, words)) > MOST_DIGITS else words


def digits_text(number: float) -> str:
    """The text of a number that may not be whole. Excel shows 1e-05 as 0.00001, and so as no name."""
    words = f"{number + 0.0:.15g}"  # of -0.0, too, Excel shows 0
    return f"{decimal.Decimal(words):f}" if "e-" in words else words


def whole_sections_of(code: str) -> list[Pieces]:
    """The sections of a format, each the list of its pieces."""
    sections: list[Pieces] = [[]]
    for piece in PIECE.findall(code):
        if piece == ";":
            sections.append([])
        else:
            sections[-1].append(piece)
    return sections


def sections_of(code: str) -> list[Pieces]:
    """The sections of a format, each the list of its pieces that add characters."""
    return [[piece for piece in section if not UNSEEN.fullmatch(piece)] for section in whole_sections_of(code)]


def shows_texts(code: str) -> bool:
    """Whether a format shows a text as it is. Its fourth section is of texts, or else its last one, if that has an @."""
    sections = sections_of(code)
    at = 3 if len(sections) > 3 else -1
    of_texts = sections[at]
    words = "".join(of_texts).lower()
    if of_texts == ["@"] or words == "general":
        return not any(map(WHITE.fullmatch, whole_sections_of(code)[at]))
    return len(sections) < 4 and "@" not in of_texts and not (len(sections) == 1 and "general" in words)


def added_characters(piece: str) -> str:
    """The characters that a piece of a format adds to a number; of one that fills the cell, once."""
    if piece.startswith("[$"):
        return piece[2:-1].partition("-")[0]
    if piece[0] in '"\\*':
        return piece[1:].removesuffix('"')
    return "" if piece.isascii() else piece


def one_character_of(piece: str) -> str:
    """A piece as one character. Of one that adds characters, a character that no format has, or nothing if they may separate thousands."""
    if words := added_characters(piece):
        return "\0" if words.strip(SEPARATORS) else ""
    if piece.lower() == "general":
        return GENERAL
    if piece in "Ee":
        return "\0"  # (E+ or E- begins a power of ten)
    return piece[0] if len(piece) == 1 or piece[0] in "Ee" else ""


def place_character(piece: str) -> str:
    """A piece between places of digits as one character, also if it only adds a blank. Of one that fills the cell, a character that no
    format has."""
    if piece[0] in "_*":
        return " " if piece[0] == "_" else "\0"
    words = "" if UNSEEN.fullmatch(piece) else added_characters(piece)
    return (words if words in SEPARATORS and len(words) == 1 else "\0") if words else one_character_of(piece)


def parts_digits(section: Pieces) -> bool:
    """Whether a whole section of a format shows the digits of a number in parts that may be taken for several numbers, or shows none."""
    found = DIGITS.search("".join(map(place_character, section)))
    return not found or not ONE_NUMBER.fullmatch(found[0])


def changes_number(section: Pieces) -> bool:
    """Whether a whole section of a format shows another number: if it adds digits, a point or a comma, or anything between digits that
    separates no thousands, or shows two points, a thousandth, digits in reverse or in white, or none."""
    pieces = [piece for piece in section if not UNSEEN.fullmatch(piece)]
    if parts_digits(section) or any(map(WHITE.fullmatch, section)):
        return True
    words = list(map(added_characters, pieces))
    if any(each.isnumeric() or each == REVERSED for each in "".join(words)):
        return True
    if re.search(f"[{POINTS}]", unicodedata.normalize("NFKC", without_letters(words))):
        return True
    code = "".join(map(one_character_of, pieces))
    digits = DIGITS.search(code)
    return bool(digits and "," in code[digits.end() :] or re.search(r"[1-9]|[0#?],+(?![0#?,])|\..*\.", code))


def without_letters(words: Iterable[str]) -> str:
    """Those of some words that have no letter."""
    return "".join(each for each in words if not any(map(str.isalpha, each)))


@functools.lru_cache(2**10)
def plain_sign(character: str) -> str:
    """A minus or a bracket for those of all scripts; other characters as they are."""
    kind = unicodedata.category(character)
    if kind == "Pd" or character in OTHER_MINUSES or MINUS.search(unicodedata.name(character, "")):
        return "-"
    return {"Ps": "(", "Pe": ")"}.get(kind, character)


def plain_signs(pieces: Pieces) -> list[str]:
    """The characters that each piece shows besides digits, with the same signs for all scripts."""
    return ["".join(map(plain_sign, added_characters(piece) or (piece if len(piece) == 1 else ""))) for piece in pieces]


def has_sign(pieces: Pieces) -> bool:
    """Whether a section shows the sign of a negative number, or brackets around it. In words such as EUR-MWh or (MW) they are none."""
    marks, places = plain_signs(pieces), [at for at, piece in enumerate(pieces) if re.fullmatch(DIGIT, one_character_of(piece))]
    if re.search("[-()]", without_letters(marks)) or not places:
        return bool(places)
    before, after = (
        IN_BRACKETS.sub(lambda found: without_letters([found[0]]), "".join(part)) for part in (marks[: places[0]], marks[places[-1] + 1 :])
    )
    return bool(SIGN_BEFORE.search(before) or SIGN_AFTER.search(after))


def hides_zero(pieces: Pieces) -> bool:
    """Whether a section of a format shows zero without a digit, and without the dash that stands for it in accounts."""
    return not re.search(f"[0/{GENERAL}]", "".join(map(one_character_of, pieces))) and "-" not in "".join(plain_signs(pieces))


def added_texts(pieces: Pieces) -> list[str]:
    """The words that a section of a format adds to a number, before and after digits."""
    ends = f"0#?.,/@{GENERAL}"  # the characters that may end words
    words = (added_characters(piece) or ("\0" if one_character_of(piece) in ends or len(piece) > 1 else piece) for piece in pieces)
    return [found for found in "".join(words).split("\0") if found]


def kind_function(words: list[str]) -> Shown:
    """The kind of a number to which a format adds words: by the unit that they say, or with one of them if orders don't have it."""
    units = ["".join(map(plain_sign, found)).strip(SIGNS) for found in words]
    for kind, pattern in UNITS.items():
        if all(map(pattern.fullmatch, units)):
            return kind
    others = [found for found, unit in zip(words, units) if not any(pattern.fullmatch(unit) for pattern in UNITS.values())]
    return lambda number: Worded(f"{number} {(others or words[-1:])[0]}")


class Changes(NamedTuple):
    """Whether a format changes numbers, by their sign."""

    positive: bool
    negative: bool
    zero: bool


def changes_by_sign(code: str) -> Changes:
    """A section of its own for negative numbers shows them without their sign. Under conditions any section may be of any number."""
    sections = sections_of(code)[:3]
    changed = list(map(changes_number, whole_sections_of(code)[:3]))
    signed, hides = (list(map(call, sections)) for call in (has_sign, hides_zero))
    if re.search(r"\[[<>=]", code):
        positive = any(changed) or any(signed)
        return Changes(positive, True, positive or any(hides))
    positive = changed[0] or signed[0]
    negative = changed[1] or not signed[1] if len(sections) > 1 else positive
    return Changes(positive, negative, changed[2] or hides[2] if len(sections) > 2 else positive or hides[0])


class Fractions:
    """How many more numbers are rounded to fractions of many digits, which takes time. The look of the others isn't reported."""

    def __init__(self) -> None:
        self.left = MOST_FRACTIONS

    def take_and_see(self) -> bool:
        """Takes one, and returns whether there was one left."""
        self.left -= 1
        return self.left >= 0


def sections_function(code: str, fractions: Fractions) -> Shown:
    """How a format shows a number. Of a name, 0 alone shows all characters."""
    changes = changes_by_sign(code)
    sections = sections_of(code)[:3]
    parts = [sections] if re.search(r"\[[<>=]", code) else [[section] for section in sections]  # a number has one of these
    kinds = [kind_function([words for section in part for words in added_texts(section)]) for part in parts]
    roundings = [[rounding_function(pieces, fractions) for pieces in part] for part in parts]

    def shown(words: int | str) -> str:
        number = decimal.Decimal(words)
        if changes.positive if number > 0 else changes.negative if number < 0 else changes.zero:
            return Changed(words)
        at = 0 if number > 0 else 1 if number < 0 else 2
        at = at if at < len(parts) else 0
        for rounded in roundings[at]:
            if (other := rounded(number)) != number:
                return Changed(words) if other is None else Rounded(f"{words} {other + 0}")
        return str(words) if code.strip() == "0" else kinds[at](words)

    return shown


def rounding_function(pieces: Pieces, fractions: Fractions) -> Rounding:
    """Rounds a number to the digits of a section of a format, or to its fractions; to None if too many were rounded to long ones."""
    code = "".join(map(one_character_of, pieces))
    digits, *power = re.split("[Ee]", code, 1)
    whole, places, below = (len(re.findall(DIGIT, part)) for part in (*digits.partition(".")[::2], code.partition("/")[2]))

    def rounded(number: decimal.Decimal) -> Number | None:
        if GENERAL in code or not number:
            return number
        if below:
            most = 10 ** min(below, MOST_BELOW) - 1
            if abs(number) * 2 * most < 1:
                return 0
            if number.as_integer_ratio()[1] <= most:
                return number
            return Fraction(number).limit_denominator(most) if below <= FEW_BELOW or fractions.take_and_see() else None
        first = 0 if not power else number.adjusted() // whole * whole if whole else number.adjusted() + 1
        last = decimal.Decimal(1).scaleb(first - places)
        exponent = int(number.normalize().as_tuple().exponent)  # the number is finite
        return number if exponent >= first - places else number.quantize(last, decimal.ROUND_HALF_UP)

    return rounded


def format_function(code: str, fractions: Fractions) -> Shown:
    if code.strip().lower() in GENERAL_CODES:
        return general_text
    if re.search("[dmyhs]", NO_DATE.sub("", code).split(";")[0], re.IGNORECASE):
        return Date
    if any(piece == "%" or piece.startswith("[$") and "%" in piece for piece in PIECE.findall(code)):  # a currency may be named %
        return Percentage
    return sections_function(code, fractions)
