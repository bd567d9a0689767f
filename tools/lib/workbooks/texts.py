"""Texts with their formats, and the strings that the cells of all sheets share."""

from .cells import Kept, Numbers, unescaped
from .fonts import FONT, FONT_PARTS, INDEXED, OF_FONTS, Palette, changes_text
from .limits import MOST_TEXT, BadWorkbook, broken_error, memory_size, too_many_error
from .part import Attributes, Part


class Texts(Part):
    """A part with texts: each is whole, or in runs that have formats. How it is pronounced (`rPh`) may follow, and is left out."""

    TEXT, RUN, PRONOUNCED = "t r* rPh* phoneticPr", "rPr t", "t"

    is_whole = is_pronounced = is_marked = False
    is_taken = True
    palette: Palette = INDEXED

    def begin_text(self, is_taken: bool = True) -> None:
        self.is_whole = self.is_pronounced = self.is_marked = False
        self.is_taken = is_taken

    def open_strike(self, attributes: Attributes) -> None:
        self.is_marked = self.is_marked or changes_text(self.within[-1], attributes, self.palette)

    open_vertAlign = open_color = open_sz = open_rFont = open_charset = open_strike

    def open_t(self, _: Attributes) -> None:
        around = self.within[-2]
        self.is_whole = self.is_whole or around not in ("r", "rPh")
        if self.is_taken and around != "rPh":
            self.keep_text()
        else:
            self.ignore_text()

    def open_r(self, _: Attributes) -> None:
        if self.is_whole:
            raise self.error_of("it has two texts: a whole one, and one in runs")

    def open_rPh(self, _: Attributes) -> None:
        self.is_pronounced = True

    def close_t(self) -> None:
        self.allow_no_text()

    def pop_whole_text_or_refuse(self) -> str:
        words = self.pop_text()
        if self.is_pronounced and not words:
            raise self.error_of("its only text is how it is pronounced (rPh)")
        return words


class Strings(Texts):
    """The shared strings that are needed, by their numbers."""

    ROOT = "sst"
    PLACES = {"": ROOT, ROOT: "si* extLst", "si": Texts.TEXT, "r": Texts.RUN, "rPr": FONT, "rPh": Texts.PRONOUNCED}
    BETWEEN = {"rPr": OF_FONTS}
    ELSEWHERE = {"rPr", *FONT_PARTS}

    def __init__(self, needed: Numbers | set[int], palette: Palette) -> None:
        super().__init__()
        self.palette = palette
        self.needed, self.number, self.texts, self.size = needed, -1, Kept(), 0
        self.styled = Numbers()  # of those that Excel shows in another way

    def open_si(self, _: Attributes) -> None:
        self.number += 1
        self.begin_text(self.number in self.needed)

    def close_si(self) -> None:
        if self.is_taken:
            words = unescaped(self.pop_whole_text_or_refuse())
            self.size += memory_size(words)
            if self.size > MOST_TEXT:
                raise too_many_error(MOST_TEXT, "bytes of text in its cells")
            self.texts.add(self.number, words)
            if self.is_marked:
                self.styled.add(self.number)

    def error_of(self, words: str) -> BadWorkbook:
        return broken_error(f"string {self.number} of its cells: {words}")
