"""A workbook as its parts list it: its sheets, the names of formulas, and the parts that the sheets share."""

import posixpath

from ..base import text
from .cells import Numbers
from .formulas import volatile_names
from .limits import LONGEST_NAME, MOST_DEFINED, MOST_OF_DEFINED, MOST_SHEETS, broken_error, too_many_error
from .package import Package
from .part import ANY_OTHERS, Attributes, Part, truth_word, unsigned_number
from .styles import Styles
from .texts import Strings

PACKAGING = ("http://schemas.openxmlformats.org/package/2006/relationships",)
RELATION = (
    "http://schemas.openxmlformats.org/officeDocument/2006/relationships id",
    "http://purl.oclc.org/ooxml/officeDocument/relationships id",
)
WORKBOOK, SHEET, STRINGS, STYLES = "officeDocument", "worksheet", "sharedStrings", "styles"
WITHOUT_CELLS, OF_MACROS = ("chartsheet", "dialogsheet"), ("xlMacrosheet", "xlIntlMacrosheet")  # other kinds of sheets
CURRENT = 191_028  # the number of Excel's computation since 2019, by which it decides whether to compute formulas again
KINDS = {WORKBOOK, SHEET, *WITHOUT_CELLS, *OF_MACROS, STRINGS, STYLES}


def is_calculation_due(attributes: Attributes) -> bool:
    """Whether Excel computes all formulas once it opens the workbook."""
    return truth_word(attributes, "fullCalcOnLoad") == "TRUE"


class Relations(Part):
    """The parts that belong to another one: the kind and the name of each by its identifier."""

    NAMESPACES, ROOT = PACKAGING, "Relationships"
    PLACES = {"": ROOT, ROOT: "Relationship*"}

    def __init__(self, owner: str) -> None:
        super().__init__()
        folder, name = posixpath.split(owner)
        self.folder = f"/{folder}"
        self.part = posixpath.join(folder, "_rels", f"{name}.rels")
        self.parts: dict[str, tuple[str, str]] = {}

    def open_Relationship(self, attributes: Attributes) -> None:
        identifier, target = attributes.get("Id", ""), attributes.get("Target", "")
        kind = attributes.get("Type", "").rpartition("/")[2]
        if kind not in KINDS:
            return
        if max(len(identifier), len(target)) > LONGEST_NAME:
            raise broken_error(f"the name of a part has more than {LONGEST_NAME:,} characters")
        if identifier in self.parts:
            raise broken_error(f"two relations are named {text.quoted(identifier)}")
        if len(self.parts) == MOST_SHEETS:
            raise too_many_error(MOST_SHEETS, "sheets")
        if "%" in target:  # it would stand for a character, by which another part may be meant
            raise broken_error(f"the name of a part has a %: {text.quoted(target)}")
        if attributes.get("TargetMode") == "External":
            raise broken_error(f"{text.quoted(target)} isn't a part of it")
        self.parts[identifier] = kind, posixpath.normpath(posixpath.join(self.folder, target)).lstrip("/")

    def only_part(self, kind: str) -> str | None:
        """The only part of a kind; None if there is none."""
        found = [part for each, part in self.parts.values() if each == kind]
        if len(found) > 1:
            raise broken_error(f"it has two parts of the kind {kind}")
        return found[0] if found else None


class Workbook(Part):
    """The sheets of a workbook, and the parts that they share."""

    ROOT = "workbook"
    PLACES = {"": ROOT, ROOT: "workbookPr sheets definedNames calcPr extLst", "sheets": "sheet*", "definedNames": "definedName*"}
    BETWEEN = {ROOT: {ANY_OTHERS, *(
        "fileVersion fileSharing workbookProtection bookViews functionGroups externalReferences oleSize customWorkbookViews"
        " pivotCaches smartTagPr smartTagTypes webPublishing fileRecoveryPr webPublishObjects").split()}}  # fmt: skip

    def __init__(self, package: Package) -> None:
        super().__init__()
        self.package, self.from_1904, self.is_computed = package, False, True
        self.sheets: list[tuple[str, str]] = []  # the name and the identifier of each
        self.hidden: set[str] = set()
        self.is_current = False  # whether the values of formulas are those of today's Excel
        self.defined: dict[str, str] = {}  # formulas by their names
        self.size_of_defined = self.size_of_first_formulas = 0  # characters of these, and of the formulas in the first rows of sheets
        if not package.has("_rels/.rels"):
            raise broken_error("it isn't an Excel workbook (.xlsx), but another archive")
        part = self.parse_relations("").only_part(WORKBOOK)
        if part is None:
            raise broken_error("it has no sheets")
        self.relations = self.parse_relations(part)
        self.feed_or_refuse(package, part)
        self.volatile_names = volatile_names(self.defined)
        self.styles = Styles()
        if part := self.relations.only_part(STYLES):
            self.styles.feed_or_refuse(package, part)

    def parse_relations(self, owner: str) -> Relations:
        relations = Relations(owner)
        relations.feed_or_refuse(self.package, relations.part)
        return relations

    def open_workbookPr(self, attributes: Attributes) -> None:
        self.from_1904 = truth_word(attributes, "date1904") == "TRUE"

    def open_definedName(self, attributes: Attributes) -> None:
        self.name = attributes.get("name", "").upper()
        self.keep_text()

    def close_definedName(self) -> None:
        """Keeps the formula of a name: all formulas, if sheets have their own."""
        self.allow_no_text()
        formula = self.pop_text()
        self.defined[self.name] = f"{self.defined[self.name]} {formula}" if self.name in self.defined else formula
        self.size_of_defined += len(self.name) + len(formula)
        for count, most, things in (
            (len(self.defined), MOST_DEFINED, "names of formulas"),
            (self.size_of_defined, MOST_OF_DEFINED, "characters in its names of formulas"),
        ):
            if count > most:
                raise too_many_error(most, things)

    def open_calcPr(self, attributes: Attributes) -> None:
        """A program that doesn't compute formulas lets Excel do it once it opens the workbook; so does Excel for an older one."""
        self.is_current = (unsigned_number(attributes.get("calcId", "")) or 0) >= CURRENT
        self.is_computed = not is_calculation_due(attributes) and truth_word(attributes, "calcCompleted") != "FALSE"

    def open_sheet(self, attributes: Attributes) -> None:
        if len(self.sheets) == MOST_SHEETS:
            raise too_many_error(MOST_SHEETS, "sheets")
        name, identifier = attributes.get("name", ""), next((attributes[each] for each in RELATION if each in attributes), "")
        if max(len(name), len(identifier)) > LONGEST_NAME:
            raise broken_error(f"the name of a sheet has more than {LONGEST_NAME:,} characters")
        self.sheets.append((name, identifier))
        if attributes.get("state", "visible") != "visible":
            self.hidden.add(name)

    def sheet_parts_or_refuse(self) -> dict[str, str | None]:
        """The part of each sheet with cells, by its name; None of a sheet of macros. Excel takes names that differ by capitals for one."""
        sheets: dict[str, str | None] = {}
        names: set[str] = set()
        for name, identifier in self.sheets:
            kind, part = self.relations.parts.get(identifier, ("", ""))
            if kind in WITHOUT_CELLS:
                continue
            is_known = name.lower() in names
            if kind not in (SHEET, *OF_MACROS) or is_known:
                raise broken_error(f"{'two sheets are' if is_known else 'no part has the sheet'} named {text.quoted(name)}")
            sheets[name] = part if kind == SHEET else None
            names.add(name.lower())
        if not any(sheets.values()):
            raise broken_error("it has no sheets")
        return sheets

    def parse_strings(self, needed: Numbers | set[int]) -> Strings:
        """The shared strings, of which those that are needed are read."""
        strings = Strings(needed, self.styles.palette)
        part = self.relations.only_part(STRINGS)
        if needed and part:
            strings.feed_or_refuse(self.package, part)
        return strings
