"""The list of crates: crates.txt, and the lists of the tests and of the bench that have its form. It runs with Python 3.8."""

from __future__ import annotations

import os
import shutil


def parse_crates(text: str, with_kinds: bool = False) -> dict[str, list[str]]:
    """The libraries that each crate of such a list uses, by its name, in the order of the list. A crate that comes twice uses what both
    lines say. `#` begins a comment. The kind of a library may come after its name; it is kept in the name if that is asked for."""
    found: dict[str, list[str]] = {}
    for line in text.splitlines():
        name, colon, below = line.partition("#")[0].partition(":")
        if colon:
            words = name.split()
            found.setdefault(" ".join(words) if with_kinds else words[0], []).extend(below.split())
    return found


def read_crates(top: str, *other_lists: str, with_kinds: bool = False) -> dict[str, list[str]]:
    """The same of a repository's crates.txt, and of other lists."""
    texts = []
    for path in (f"{top}/crates.txt", *other_lists):
        with open(path, encoding="utf-8") as text:
            texts.append(text.read())
    return parse_crates("\n".join(texts), with_kinds)


def without_foreign(crates: dict[str, list[str]]) -> dict[str, list[str]]:
    """The same crates, each with those libraries alone that are in the list too."""
    return {name: [library for library in below if library in crates] for name, below in crates.items()}


def crates_below(crates: dict[str, list[str]], name: str) -> set[str]:
    """The crates of the list that a crate uses, directly or not."""
    found: set[str] = set()
    for library in crates[name]:
        if library in crates:
            found |= {library} | crates_below(crates, library)
    return found


def make_link_or_copy(source: str, target: str) -> None:
    """Makes a hard link, or a copy if the file system has none. For the files of a built library, which no one changes in place."""
    try:
        os.link(source, target)
    except OSError:
        shutil.copy2(source, target)
