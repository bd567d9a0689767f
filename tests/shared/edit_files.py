"""The edits of must-fail/ and wrong-bodies/: each makes a wrong text of a right one.

A file of must-fail/ is one edit. A file of wrong-bodies/ has several, each below a line with its name and in the order of their first
source files and their names, or is one, too. The file tests/rattle/wrong-bodies.edit has those that contracts allow and a test finds. There
a line 'test: CRATE TEST' names the test, which stands in the folder CRATE/src next to that file, and the paths begin with crates/CRATE/."""

import functools
import os
import re
from collections.abc import Iterable, Iterator, Mapping
from pathlib import Path

from shared.rattle_source import functions_of, parts_outside_functions

FOLDERS = ("must-fail", "wrong-bodies")
NAMED = re.compile(r"^name:[ \t]*(.*?)[ \t]*$", re.MULTILINE)
FIRST_FILE = re.compile(r"(?:^file:[ \t]*(.*?)[ \t]*$|\Z)", re.MULTILINE)
TEST_LINE = re.compile(r"^test: (\w+) ([\w:]+)\n", re.MULTILINE)
CRATE_PATH = re.compile(r"^file: crates/(\w+)/", re.MULTILINE)
A_TEST = re.compile(r"^#\[test\]\nfn (\w+)\(", re.MULTILINE)


class UnfitEdit(Exception):
    """Why an edit cannot be applied."""


class WrongBody:
    """A wrong body of a crate: the whole texts that it makes, by their path in the crate, or the fault by which it makes none."""

    def __init__(self, name: str, place: str, text: str, folder: str, fault: str | None = None) -> None:
        self.name, self.place, self.folder = name, place, folder
        self.rank = FIRST_FILE.findall(text)[0], name
        self.texts: dict[str, str] = {}
        self.fault = fault

    @classmethod
    def read_and_apply(cls, name: str, place: str, text: str, folder: str, fault: str | None = None) -> "WrongBody":
        """A wrong body with its texts, which are read in the crate's folder and edited, unless it has a fault already."""
        body = cls(name, place, text, folder, fault)
        try:
            body.texts = {} if fault else read_and_edit(text, folder)
        except UnfitEdit as why:
            body.fault = str(why)
        return body

    @functools.cache
    def read_new_bodies(self) -> dict[tuple[str, int], str]:
        """The new body of each function whose body changes, by path and number in the file; none if anything else changes too."""
        return read_changed_bodies(self.texts, self.folder)


def read_edits(folder: str, kinds: Iterable[str]) -> list[WrongBody]:
    """Returns the edits of a crate in folders of these kinds, in the order of their names."""
    found = []
    for kind in kinds:
        files = os.listdir(f"{folder}/{kind}") if os.path.isdir(f"{folder}/{kind}") else []
        for file in sorted(files):
            if not file.endswith(".md"):
                found += read_edits_of_file(f"{kind}/{file}", folder, may_be_several=kind != "must-fail")
    found.sort(key=lambda it: it.name)
    for one, other in zip(found, found[1:]):
        if one.name == other.name:
            other.fault = f"the crate has another edit of this name, {one.place}"
    return found


def read_edits_of_file(path: str, folder: str, may_be_several: bool) -> list[WrongBody]:
    """Returns the edits of a file, given by its path in the crate."""
    name, ending = os.path.splitext(os.path.basename(path))
    if ending != ".edit":
        return [WrongBody(name, path, "", folder, "its name does not end in .edit")]
    text = read_text(f"{folder}/{path}")
    if not (may_be_several and NAMED.search(text)):
        return [WrongBody.read_and_apply(name, path, text, folder)]
    found = []
    for named, line, body in parts_of_edit_file(text):
        if named is None:
            found.append(WrongBody(name, path, body, folder, "a line stands before the first 'name:' line"))
        else:
            fault = None if named else "a 'name:' line names nothing"
            found.append(WrongBody.read_and_apply(named, f"{path}:{line}", body, folder, fault))
    for one, other in zip(found, found[1:]):
        if other.fault is None and other.rank < one.rank:
            other.fault = f"it stands after {one.name}, and not in the order of files and names"
    return found


def parts_of_edit_file(text: str) -> Iterator[tuple[str | None, int, str]]:
    """Yields each 'name:' line's name, its number and the text below it; with None for the name, a text before the first such line."""
    first, *others = NAMED.split(text)
    if first.strip():
        yield None, 1, first
    line = first.count("\n") + 1
    for name, body in zip(others[::2], others[1::2]):
        yield name, line, body
        line += body.count("\n")


def read_edits_that_tests_find(file: str, top: str | Path) -> list[tuple[WrongBody, str, str]]:
    """Returns the edits of tests/rattle/wrong-bodies.edit, applied to the crates of this folder, each with the crate and the path of its
    test."""
    found, names = [], set[str | None]()
    for name, line, text in parts_of_edit_file(read_text(file)):
        crates, tests, fault = {*CRATE_PATH.findall(text)}, TEST_LINE.findall(text), None
        if not name or name in names:
            fault = "it has no name, or another's"
        elif len(crates) != 1 or len(tests) != 1:
            fault = "it needs one 'test:' line, and 'file:' lines of one crate"
        elif not read_and_see_test(os.path.dirname(file), *tests[0]):
            fault = f"there is no test {' '.join(tests[0])}"
        names.add(name)
        text = TEST_LINE.sub("", CRATE_PATH.sub("file: ", text))
        place, folder = f"{os.path.relpath(file, top)}:{line}", f"{top}/crates/{min(crates, default='')}"
        edit = WrongBody.read_and_apply(name or "", place, text, folder, fault)
        crate, test = tests[0] if tests else ("", "")
        found.append((edit, crate, test))
    return found


def read_and_see_test(tests: str, crate: str, path: str) -> bool:
    """Returns whether the tests of a crate, below this folder, have one of this path, such as bound::prices::a_test."""
    *modules, name = path.split("::")
    file = f"{tests}/{crate}/src/{'/'.join(modules) or 'lib'}.rt.test"
    return os.path.isfile(file) and name in A_TEST.findall(read_text(file))


def read_and_edit(edit: str, folder: str) -> dict[str, str]:
    """Returns the texts that the text of an edit makes of the files of a crate, by their path in it."""
    path, old, texts = "", "", dict[str, str]()
    for line in edit.split("\n"):
        word, _, text = line.partition(":")
        text = re.sub(r"\A ", "", text)
        if word == "file":
            path = text.strip()
            if os.path.normpath(path) != path or not path.startswith(("src/", "specs/", "proofs/")):
                raise UnfitEdit(f"its 'file:' line names no file of src/, specs/ or proofs/: {path}")
        elif word == "old":
            old = text
        elif word == "new":
            if not path or not old:
                raise UnfitEdit("a 'new:' line stands before any 'file:' or 'old:' line")
            if path not in texts:
                texts[path] = read_right_text(folder, path)
            found = texts[path].count(old)
            if found != 1:
                raise UnfitEdit(f"an 'old:' text stands {found} times in {path}, and not once: {old.strip()}")
            texts[path] = texts[path].replace(old, text)
            old = ""
        elif line.strip():
            raise UnfitEdit(f"a line begins with none of 'file:', 'old:' and 'new:': {line}")
    if old:
        raise UnfitEdit("its last 'old:' line has no 'new:' line")
    if not texts:
        raise UnfitEdit("it has no 'file:', 'old:' and 'new:' line")
    same = [it for it in texts if texts[it] == read_right_text(folder, it)]
    if same:
        raise UnfitEdit(f"it leaves {same[0]} as it was")
    return texts


def read_changed_bodies(texts: Mapping[str, str], folder: str) -> dict[tuple[str, int], str]:
    """Returns the new body of each function whose body changes, by path and number; none if anything else changes too."""
    found = {}
    for path, text in texts.items():
        right = read_right_text(folder, path)
        before, after = functions_of(right), functions_of(text)
        if not path.startswith("src/") or parts_outside_functions(right, before) != parts_outside_functions(text, after):
            return {}
        for number, (old, new) in enumerate(zip(before, after)):
            if right[old.begins : old.ends] != text[new.begins : new.ends]:
                found[path, number] = text[new.begins : new.ends]
    return found


def batches_of(edits: Iterable[WrongBody]) -> list[list[WrongBody]]:
    """Returns lists of the edits, of which no two in a list change the same function."""
    found: list[list[WrongBody]] = []
    for it in edits:
        free = [batch for batch in found if not any(set(it.read_new_bodies()) & set(other.read_new_bodies()) for other in batch)]
        if free:
            free[0].append(it)
        else:
            found.append([it])
    return found


def read_right_text(folder: str, path: str) -> str:
    if not os.path.isfile(f"{folder}/{path}"):
        raise UnfitEdit(f"there is no file {path}")
    return read_text(f"{folder}/{path}")


def read_text(file: str) -> str:
    with open(file, encoding="utf-8") as text:
        return text.read()


def write_text(file: str, text: str) -> None:
    with open(file, "w", encoding="utf-8") as it:
        it.write(text)
