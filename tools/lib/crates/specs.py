"""The definitions and types of a repository, and the names in each of them and in each contract."""

from __future__ import annotations

import itertools
import re
from collections.abc import Iterable, Iterator
from pathlib import Path

from ..tool import exits, file_io
from . import crates

USE = re.compile(r"^[ ]*(?:pub )?(?:ghost )?use ([\w.]+?)(?:\.\{([^}]*)\})?(?: as \w+)?;?$", re.MULTILINE)
IMPORT = re.compile(r"^use (\w+)(?:::\w+)*::(?:\{([^}]*)\}|(\w+));$", re.MULTILINE)
HEAD = re.compile(r"^(?:pub )?(?:abbrev|unfoldable|record|data) (?:pub )?([^\s:(]+)")
WORD = re.compile(r"[^\W\d]\w*")
COMMENT = re.compile(r"(?://|--).*")
FUNCTION = re.compile(r'^( *)pub (?:const )?(?:extern "C" )?fn (\w+)\b.*?^\1\{', re.M | re.S)
CLAUSE = re.compile(r"^ +(?:requires|ensures)\b", re.M)
VARIANT = re.compile(r"^    \w+", re.MULTILINE)  # the name of a variant or a field, which is no type


Node = tuple[str, str, str, str]  # a place that a name leads to: its crate, kind ('specs' or 'src'), module and name
Targets = dict[str, "Node | None"]  # of the names of a file; None for one of the kit


class Unknown(exits.Stop):
    """A name that leads to no definition, or a definition that no contract names."""


def words_of(text: str) -> set[str]:
    return set(WORD.findall(COMMENT.sub("", text)))


def words_of_clauses(function: str) -> set[str]:
    clauses = CLAUSE.search(function)
    return words_of(function[clauses.start() :]) if clauses else set()


def targets_of(words: Iterable[str], found: Targets, *but: Node) -> set[Node]:
    """The targets of words, without some."""
    return {node for word in words if (node := found.get(word)) and node not in but}


def aliases(words: str) -> Iterator[tuple[str, str]]:
    """The names in braces of a `use` line, each under the name that the file gives it."""
    for word in filter(None, (word.strip() for word in words.split(","))):
        name, _, other = word.partition(" as ")
        yield (other or name).strip(), name.strip()


class Repository:
    """The definitions and types of a repository."""

    def __init__(self, top: Path, names: list[str]) -> None:
        self.top, self.crates = top, names
        self.texts: dict[str | Path, str] = {}
        self.modules: dict[tuple[str, str], dict[str, str]] = {}

    @classmethod
    def read(cls, top: Path) -> "Repository":
        return cls(top, list(crates.parse_crates(file_io.read_bytes(top / "crates.txt").decode())))

    def read_text(self, path: str | Path) -> str:
        """The text of a file, which is empty if there is none."""
        if path not in self.texts:
            file = self.top / path
            self.texts[path] = file_io.read_bytes(file).decode() if file.is_file() else ""
        return self.texts[path]

    def read_definitions(self, crate: str, module: str) -> dict[str, str]:
        """The text of each definition of a module of `specs/`: it ends where the next one or a comment at the margin begins."""
        texts = self.modules.get((crate, module))
        if texts is None:
            texts, name = {}, None
            for line in self.read_text(f"crates/{crate}/specs/{module}.antt").splitlines():
                head = HEAD.match(line)
                if head:
                    name = head[1]
                elif line.startswith(("--", "use ", "pub use ")):
                    name = None
                if name:
                    texts[name] = texts.get(name, "") + line + "\n"
            self.modules[crate, module] = texts
        return texts

    def read_sentence(self, crate: str, module: str, name: str) -> str:
        """The comment above a definition."""
        lines = self.read_text(f"crates/{crate}/specs/{module}.antt").splitlines()
        at = next(place for place, line in enumerate(lines) if (HEAD.match(line) or [None, None])[1] == name)
        first = at
        while lines[first - 1].startswith("-- "):
            first -= 1
        if first == at:
            raise Unknown(f"crates/{crate}/specs/{module}.antt says nothing above {name}")
        return " ".join(line[3:] for line in lines[first:at])

    def read_subject(self, crate: str, module: str) -> str:
        """The comment at the head of a module: its subject."""
        lines = self.read_text(f"crates/{crate}/specs/{module}.antt").splitlines()
        comment = list(itertools.takewhile(lambda line: line.startswith("-- "), lines))
        if not comment:
            raise Unknown(f"crates/{crate}/specs/{module}.antt doesn't say what it is about")
        return " ".join(line[3:] for line in comment)

    def read_own_modules(self, crate: str) -> list[str]:
        """The modules of a crate's `specs/` in the order of its `Lib`, without those for contracts inside the crate."""
        declared = re.findall(r"^(?:pub )?mod (\w+)$", self.read_text(f"crates/{crate}/specs/Lib.antt"), re.M)
        return [module for module in declared if self.read_text(f"crates/{crate}/specs/{module}.antt")]

    def read_holder_name(self, crate: str, module: str, name: str) -> str:
        """The definition of which a name is a part, such as a field, or the name."""
        texts = self.read_definitions(crate, module)
        holders = (key for key, text in texts.items() if re.search(rf"^  (?:pub )?{re.escape(name)} :", text, re.M))
        return name if name in texts else next(holders, name)

    def read_cited(self) -> Iterator[tuple[Node, str]]:
        """Each definition that the clauses of a public function name, with the function."""
        for crate in self.crates:
            folder = self.top / "crates" / crate / "src"
            for path in sorted(folder.rglob("*.rt")):
                module = str(path.relative_to(folder).with_suffix(""))
                text, found = self.read_source_and_targets(crate, module)
                for function in FUNCTION.finditer(text):
                    for name in sorted(words_of_clauses(function[0])):
                        node = found.get(name)
                        if node and node[1] == "specs" and not node[2].startswith("inside"):
                            yield (*node[:3], self.read_holder_name(node[0], *node[2:])), f"{crate}::{module}::{function[2]}"

    def read_home_crate(self, crate: str, module: str) -> str:
        """The crate of a module of `specs/`: a crate may re-export modules of a lower one."""
        while not self.read_text(f"crates/{crate}/specs/{module}.antt"):
            given = re.search(rf"^pub use Rattle\.(\w+)\.specs\.{module}$", self.read_text(f"crates/{crate}/specs/Lib.antt"), re.M)
            if not given:
                raise Unknown(f"{crate} has no module {module} of definitions")
            crate = given[1]
        return crate

    def read_target(self, path: str, name: str) -> Node | None:
        """The target of a name of a `use` line, or nothing if that is the kit's."""
        parts = path.split(".")
        if parts[0] != "Rattle" or parts[1] not in self.crates:
            return None
        crate, kind, rest = parts[1], parts[2], parts[3:]
        if kind == "specs" and rest[0] == "declared":
            return crate, "src", rest[1], rest[2]
        if kind != "specs" or rest[0] == "contracts":
            return None
        module = "/".join(rest)
        return self.read_home_crate(crate, module), "specs", module, name

    def add_targets_of_used_names(self, text: str, into: Targets) -> None:
        """Adds the targets of the names of a file's text, by its `use` lines."""
        for path, words in USE.findall(text):
            for alias, name in aliases(words):
                into[alias] = self.read_target(path, name)

    def read_type_target(self, crate: str, name: str) -> Node | None:
        """Where a crate declares a type, or the crate whose type it re-exports."""
        folder = self.top / "crates" / crate / "src"
        for path in sorted(folder.glob("*.rt")):
            if re.search(rf"^pub(?:\(crate\))? (?:struct|enum) {name}\b", self.read_text(path.relative_to(self.top)), re.M):
                return crate, "src", path.stem, name
        for given, words in re.findall(r"^pub use (\w+)::\{([^}]*)\};$", self.read_text(f"crates/{crate}/src/lib.rt"), re.M):
            if given in self.crates and name in dict(aliases(words)):
                return self.read_type_target(given, name)
        return None

    def read_source(self, crate: str, module: str) -> str:
        text = self.read_text(f"crates/{crate}/src/{module}.rt")
        if not text:
            raise Unknown(f"{crate} has no source {module}")
        return text

    def read_source_and_targets(self, crate: str, module: str) -> tuple[str, Targets]:
        """The targets of the names of a source: by its own types, its imports, and its `ghost use` lines."""
        text = self.read_source(crate, module)
        found: Targets = {}
        for name in re.findall(r"^pub(?:\(crate\))? (?:struct|enum) (\w+)", text, re.M):
            found[name] = (crate, "src", module, name)
        for origin, words, word in IMPORT.findall(text):
            home = crate if origin == "crate" else origin
            if home in self.crates:
                for alias, name in aliases(words or word):
                    found[alias] = self.read_type_target(home, name)
        self.add_targets_of_used_names("\n".join(re.findall(r"^ghost use [^;]*;", text, re.M)), found)
        return text, found

    def read_signature(self, function: str, crate: str, module: str) -> str:
        name = function.rpartition(":")[2]
        whole = re.search(rf'^( *)pub (?:extern "C" )?fn {name}\b.*?^\1\{{$', self.read_source(crate, module), re.M | re.S)
        if not whole:
            raise Unknown(f"{crate}/src/{module}.rt has no function {function}")
        return whole[0].rstrip("{").rstrip() + "\n"

    def read_contract_targets(self, function: str, crate: str, module: str) -> set[Node]:
        """The names in the clauses of a public function or method."""
        _, found = self.read_source_and_targets(crate, module)
        return targets_of(words_of_clauses(self.read_signature(function, crate, module)), found)

    def read_targets_named_in(self, node: Node) -> set[Node]:
        """The definitions and types that a definition or a type names."""
        crate, kind, module, name = node
        if kind == "src":
            return self.read_targets_named_in_type(crate, module, name)
        texts = self.read_definitions(crate, module)
        if name not in texts:
            holder = next((key for key, text in texts.items() if re.search(rf"^  {re.escape(name)} :", text, re.M)), None)
            if not holder:
                raise Unknown(f"{crate}/specs/{module}.antt has no definition {name}")
            return {(crate, kind, module, holder)}
        found: Targets = {other: (crate, kind, module, other) for other in texts}
        self.add_targets_of_used_names(self.read_text(f"crates/{crate}/specs/{module}.antt"), found)
        return targets_of(words_of(texts[name]), found, node)

    def read_targets_named_in_type(self, crate: str, module: str, name: str) -> set[Node]:
        text, found = self.read_source_and_targets(crate, module)
        model = re.search(rf"^impl(?:<[^>]*>)? Model for {name}\b.*?^\}}$", text, re.M | re.S)
        if model:
            self.add_targets_of_used_names(model[0], found)
            declared = re.search(r"ghost Value = \{(.*?)\};", model[0], re.S)
        else:
            declared = re.search(rf"^pub(?:\(crate\))? ((?:struct|enum) {name}\b.*?(?:^\}}|;)$)", text, re.M | re.S)
        if not declared:
            raise Unknown(f"{crate}/src/{module}.rt has no type {name}")
        told = declared[1] if model else VARIANT.sub("", declared[1])
        return targets_of(words_of(told), found, (crate, "src", module, name))

    def read_closure(self, nodes: Iterable[Node]) -> list[Node]:
        """The names that can be reached from some names, each before those that name it, if there is no circle."""
        ordered: list[Node] = []
        seen: set[Node] = set()

        def visit(node: Node) -> None:
            if node not in seen:
                seen.add(node)
                for other in sorted(self.read_targets_named_in(node)):
                    visit(other)
                ordered.append(node)

        for node in sorted(nodes):
            visit(node)
        return ordered
