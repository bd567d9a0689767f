"""A part of a workbook, read by expat: each element in its place by the schema."""

import functools
import itertools
import re
from collections.abc import Callable, Iterable
from typing import NamedTuple
from xml.parsers import expat

from ..base import text
from .limits import DEEPEST, LONGEST_CELL, LONGEST_MARKUP, LONGEST_NAME
from .limits import MOST_ELEMENTS, MOST_NAMED, MOST_NAMES, MOST_NAMESPACES, BadWorkbook, broken_error, too_many_error
from .package import Package

SPREADSHEET = ("http://schemas.openxmlformats.org/spreadsheetml/2006/main", "http://purl.oclc.org/ooxml/spreadsheetml/main")
BLANK = " \t\r\n"  # the characters that may stand between elements
EXTENSIONS, LEFT_OUT = "extLst", {"extLst", "phoneticPr"}  # elements that are left out, with everything in them
ANY_OTHERS = "*"
Attributes = dict[str, str]  # of an element, by their names
TRUTHS = {"1": "TRUE", "true": "TRUE", "0": "FALSE", "false": "FALSE"}
UNSIGNED = re.compile(r"\+?0*([0-9]{1,10})")


def unsigned_number(words: str) -> int | None:
    """The number of an attribute, around which blanks may stand; None if it has none."""
    if len(words) <= 10 and words.isascii() and words.isdigit():
        return int(words)
    found = UNSIGNED.fullmatch(words.strip(BLANK))
    return int(found[1]) if found else None


def truth_word(attributes: Attributes, name: str) -> str | None:
    """The truth value of an attribute, around which blanks may stand; None if it has none."""
    return TRUTHS.get(attributes.get(name, "").strip(BLANK))


class Place(NamedTuple):
    name: str
    rank: int  # among those that may stand there
    repeats: bool  # whether several may


class Part:
    """A part, as expat reads it: each element in its place by the schema. The known ones go to the methods open_NAME and close_NAME. The
    others are left out, with everything in them, in which no known element may stand."""

    NAMESPACES: tuple[str, ...] = SPREADSHEET
    ROOT = ""
    # For each known element, the ones that may stand in it, in their order (of those with a | in any); several if a * follows.
    PLACES: dict[str, str] = {}
    # Others that may stand between these, in any order, with those of other namespaces; never after the extensions.
    BETWEEN: dict[str, set[str]] = {}
    ELSEWHERE: set[str] = set()  # the known ones that have another meaning in elements that are left out
    parser: expat.XMLParserType
    package: Package

    def __init__(self) -> None:
        self.prefix = ""  # of the known names: the namespace
        self.within, self.ranks = [""], [-1]  # the elements around this place, and the rank of the last one in each
        self.left_out, self.outside = 0, ""  # how deep it is in an element that is left out, and the name of that
        self.schema = schema_of(tuple(self.PLACES.items()), "")  # with places only once the namespace is known
        known = self.schema.known
        self.opening: dict[str, Callable[[Attributes], None] | None] = {name: getattr(self, f"open_{name}", None) for name in known}
        self.closing: dict[str, Callable[[], None] | None] = {name: getattr(self, f"close_{name}", None) for name in known}
        self.kept = {f"{space} {name}" for space in self.NAMESPACES for name in known - self.ELSEWHERE}
        self.taken: list[str] = []
        self.length = self.namespaces = 0

    def feed_or_refuse(self, package: Package, name: str) -> None:
        self.package = package
        chunks = package.require_chunks(name)
        try:
            self.feed_chunks_or_refuse(chunks)
        except expat.ExpatError as fault:
            raise broken_error(f"{text.quoted(name)}: {fault}") from None

    def feed_chunks_or_refuse(self, chunks: Iterable[bytes]) -> None:
        names: dict[str, str] = {}
        self.parser = parser = expat.ParserCreate(None, " ", names)
        parser.buffer_text = True
        parser.XmlDeclHandler, parser.StartDoctypeDeclHandler = self.refuse_encoding, self.refuse_type
        parser.StartNamespaceDeclHandler = self.count_namespace_or_refuse
        parser.StartElementHandler, parser.EndElementHandler = self.open_element, self.close_element
        parser.CharacterDataHandler = self.refuse_text
        fed = seen = characters = 0
        try:
            for chunk in chunks:
                parser.Parse(chunk, False)
                fed += len(chunk)
                if len(names) > MOST_NAMES:
                    raise too_many_error(MOST_NAMES, "names of elements")
                characters += sum(map(name_length_or_refuse, itertools.islice(names, seen, None)))
                seen = len(names)
                if characters > MOST_NAMED:
                    raise too_many_error(MOST_NAMED, "characters in the names of elements")
                if fed - parser.CurrentByteIndex > LONGEST_MARKUP:
                    raise broken_error(f"a tag has more than {LONGEST_MARKUP} bytes")
            parser.Parse(b"", True)
        finally:
            del self.parser  # with its names

    def refuse_encoding(self, version: str, encoding: str | None, standalone: int) -> None:
        if encoding and encoding.lower() not in ("utf-8", "utf-16"):
            raise broken_error(f"the encoding {text.quoted(encoding)} isn't one of Excel's")

    def refuse_type(self, *type: object) -> None:
        raise broken_error("it has a document type")

    def count_namespace_or_refuse(self, prefix: str | None, uri: str | None) -> None:
        self.namespaces += 1
        if self.namespaces > MOST_NAMESPACES:
            raise too_many_error(MOST_NAMESPACES, "namespaces")
        name_length_or_refuse(uri)

    def open_element(self, name: str, attributes: Attributes) -> None:
        self.package.elements += 1
        if self.package.elements > MOST_ELEMENTS:
            raise too_many_error(MOST_ELEMENTS, "elements: delete the rows and columns that the table doesn't need")
        if self.left_out:
            self.pass_left_out_or_refuse(name, attributes)
            return
        if not self.prefix:
            self.begin_root_or_refuse(name)
        within, ranks = self.within, self.ranks
        place = self.schema.places[within[-1]].get(name)
        if place is None:
            self.refuse_stranger(within[-1], name)
            self.leave_out(name.removeprefix(self.prefix))
            return
        local, rank, repeats = place
        if rank < ranks[-1] or rank == ranks[-1] and not repeats:
            raise self.place_error(within[-1], place)
        ranks[-1] = rank
        if local in LEFT_OUT:
            self.leave_out(local)
            return
        within.append(local)
        ranks.append(-1)
        if call := self.opening[local]:
            call(attributes)

    def leave_out(self, name: str) -> None:
        self.left_out, self.outside = 1, name
        self.parser.CharacterDataHandler = None

    def pass_left_out_or_refuse(self, name: str, attributes: Attributes) -> None:
        """Passes an element in one that is left out."""
        self.left_out += 1
        if self.left_out > DEEPEST:
            raise broken_error(f"more than {DEEPEST} elements stand in one another")
        if name in self.kept:
            raise self.error_of(f"an element {text.quoted(name.rpartition(' ')[2])} stands in {text.quoted(self.outside)}")
        self.refuse_in_left_out_and_note_font(name.rpartition(" ")[2], attributes)

    def refuse_in_left_out_and_note_font(self, name: str, attributes: Attributes) -> None:
        """Refuses an element of any namespace, in one that is left out, that changes the values that the part shows."""

    def refuse_stranger(self, within: str, name: str) -> None:
        """Refuses an element that isn't a known one, unless it may stand here."""
        local, places = name.removeprefix(self.prefix), self.schema.places[within]
        if (ANY_OTHERS if local == name else local) not in self.BETWEEN.get(within, ()):
            raise self.error_of(f"an element {text.quoted(local)} stands in {text.quoted(within)}")
        last = places.get(self.prefix + EXTENSIONS)
        if last and self.ranks[-1] == last.rank:
            raise self.error_of(f"an element {text.quoted(local)} stands after the extensions of {text.quoted(within)}")

    def place_error(self, within: str, place: Place) -> BadWorkbook:
        """The fault of an element that should stand once, or before the one that it follows."""
        if place.rank == self.ranks[-1]:
            return self.error_of(f"two elements {place.name!r} stand in {within!r}")
        last = next(each.name for each in self.schema.places[within].values() if each.rank == self.ranks[-1])
        return self.error_of(f"an element {place.name!r} of {within!r} stands after {last!r}, but should stand before it")

    def close_element(self, name: str) -> None:
        if self.left_out:
            self.left_out -= 1
            if not self.left_out:
                self.parser.CharacterDataHandler = self.refuse_text
            return
        self.ranks.pop()
        if call := self.closing[self.within.pop()]:
            call()

    def refuse_text(self, words: str) -> None:
        if words := words.strip(BLANK):
            raise self.error_of(f"the text {text.quoted(words)} stands in {text.quoted(self.within[-1])}")

    def begin_root_or_refuse(self, name: str) -> None:
        """Takes the namespace of the first element, or refuses the element."""
        namespace, _, name = name.rpartition(" ")
        if namespace not in self.NAMESPACES or name != self.ROOT:
            raise broken_error(f"a part has {text.quoted(name)} instead of {self.ROOT!r} as its first element")
        self.prefix = f"{namespace} "
        self.schema = schema_of(tuple(self.PLACES.items()), self.prefix)

    def error_of(self, words: str) -> BadWorkbook:
        return broken_error(words)

    def keep_text(self) -> None:
        self.parser.CharacterDataHandler = self.keep_text_or_refuse

    def keep_text_or_refuse(self, words: str) -> None:
        self.length += len(words)
        if self.length > LONGEST_CELL:
            raise self.error_of(f"it has more than {LONGEST_CELL:,} characters")
        self.taken.append(words)

    def ignore_text(self) -> None:
        self.parser.CharacterDataHandler = None

    def allow_no_text(self) -> None:
        self.parser.CharacterDataHandler = self.refuse_text

    def pop_text(self) -> str:
        """Returns the text that was kept, which is kept no longer."""
        found = "".join(self.taken)
        self.taken, self.length = [], 0
        return found


class Schema(NamedTuple):
    """The places of a kind of parts, in each element by the names with the namespace; and its known elements."""

    places: dict[str, dict[str, Place]]
    known: set[str]


@functools.lru_cache(None)
def schema_of(allowed: tuple[tuple[str, str], ...], prefix: str) -> Schema:
    """The schema of a part by the items of its `PLACES`."""
    places: dict[str, dict[str, Place]] = {}
    for within, names in allowed:
        ranked = [(rank, each) for rank, alike in enumerate(names.split()) for each in alike.split("|")]
        found = [Place(each.rstrip("*"), rank, each.endswith("*")) for rank, each in ranked]
        places[within] = {prefix + place.name: place for place in found}
    known = {place.name for there in places.values() for place in there.values()}
    return Schema({**{name: {} for name in known}, **places}, known - LEFT_OUT)


def name_length_or_refuse(name: str | None) -> int:
    """The length of a name of XML, or of none, if it isn't too long."""
    length = len(name or "")
    if length > LONGEST_NAME:
        raise broken_error(f"the name of an element has more than {LONGEST_NAME:,} characters")
    return length
