"""The formulas of a workbook: which ones Excel computes again once it opens the workbook."""

import re
from collections.abc import Collection, Mapping

# The functions that Excel computes again once it opens a workbook.
VOLATILE = re.compile(r"\b(?:NOW|TODAY|RAND(?:BETWEEN|ARRAY)?|OFFSET|INDIRECT|CELL|INFO|RTD)\s*\(")
IN_BYTES = re.compile(VOLATILE.pattern.encode(), re.IGNORECASE)
# The parts of a formula that name no function: a text, a quoted name of a sheet, and the brackets of a table or a file, in which ' marks
# one. Excel writes no bracket that isn't closed, or that has brackets in its inner ones: the group takes it with the rest of the formula,
# so that the rest isn't read again from each later one.
QUOTED = re.compile(r'''"[^"]*"|'[^']*'|\[(?:[^\[\]']|'.|\[(?:[^\[\]']|'.)*\])*\]|(\[.*)''', re.DOTALL)
NAME = re.compile(r"[\w.\\?]+")


def unquoted(formula: str) -> str:
    """A formula in capitals, with a mark in place of each such part, up to a bracket that Excel doesn't write."""
    return QUOTED.sub(r"\1'", formula.upper())


def has_volatile_function(formula: str) -> bool:
    return bool(VOLATILE.search(formula.upper()) and VOLATILE.search(unquoted(formula)))


def has_name(formula: str, names: Collection[str]) -> bool:
    """Whether a formula has one of these names, which are in capitals."""
    return bool(names) and any(found[0] in names for found in NAME.finditer(unquoted(formula)))


def volatile_names(formulas: Mapping[str, str]) -> set[str]:
    """Of formulas by their names, in capitals, the names of those that have a volatile function, or such a name. None names itself, also
    by others: Excel allows no circle."""
    codes = {name: unquoted(formula) for name, formula in formulas.items()}
    volatile = {name for name, code in codes.items() if VOLATILE.search(code)}
    seen = set(volatile)
    for first in codes:
        path, places = [] if first in seen else [first], [0]  # each one has the next one's name, before this place
        seen.add(first)
        while path:
            next_name = NAME.search(codes[path[-1]], places[-1])
            if not next_name:
                path.pop()
                places.pop()
            elif next_name[0] in volatile:
                volatile.update(path)
                break
            else:
                places[-1] = next_name.end()
                if next_name[0] in codes and next_name[0] not in seen:
                    seen.add(next_name[0])
                    path.append(next_name[0])
                    places.append(0)
    return volatile
