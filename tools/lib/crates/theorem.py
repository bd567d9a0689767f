"""The theorem as docs/THEOREM.md prints it: its contracts with their definitions, and the sizes of code, definitions and proofs."""

import re
from collections.abc import Callable, Iterable, Iterator, Mapping

from ..tool import file_io
from .reading_lists import listed_root, read_reached_definitions
from .specs import CLAUSE, Repository, Unknown

# The theorem. For each contract, whether it is printed itself; the definitions that are printed; and those whose sentence alone is.
THEOREM: dict[str, tuple[bool, list[str], list[str]]] = {
    "run_clear": (
        True,
        ["Ends", "IsMadeFrom", "AreResultsWithin", "IsClearedWithin", "IsResultsText", "IsClearing", "IsBestSelection", "IsEligible"]
        + ["HasNoLoss", "ArePrices", "IsClearingPrice", "AreEnds", "IsSupporting"],
        ["IsRunFault", "ReadsAs", "PlanHasNeeded", "ArePublished", "IsPeriodResult", "IsAdmissible", "selection_welfare"]
        + ["family_surplus", "price_between", "Balances", "Supports", "IsBest", "IsNoBetter"],
    ),
    "settle": (False, ["IsWholeAccount"], []),
}
NUMBER = re.compile(r"\d[\d,]*")


def read_places_of_reached(repository: Repository, function: str, names: Iterable[str]) -> Iterator[tuple[str, str, str]]:
    """The crate and module of each of these definitions, all of which the contract of a function reaches."""
    reached = read_reached_definitions(repository, *listed_root(function))
    for name in names:
        if name not in reached:
            raise Unknown(f"the contract of {function} doesn't reach {name}")
        crate, _, module, _ = reached[name]
        yield crate, module, name


def read_theorem_text(repository: Repository) -> str:
    """The contracts of the theorem, each with its listed definitions as they stand in the files, and the sentences of others."""
    rows = ["| As important | The comment above it |", "|---|---|"]
    parts = []
    for function, (is_printed, listed, others) in THEOREM.items():
        parts += [repository.read_signature(*listed_root(function))] * is_printed
        for crate, module, name in read_places_of_reached(repository, function, listed):
            parts.append(repository.read_definitions(crate, module)[name].rstrip() + "\n")
        for crate, module, name in read_places_of_reached(repository, function, others):
            rows.append(f"| `{name}` | {repository.read_sentence(crate, module, name)} |")
    return "\n```text\n" + "\n".join(parts) + "```\n\n" + "\n".join(rows) + "\n\n"


def read_reached_sizes(repository: Repository) -> Iterator[tuple[str, list[int]]]:
    """How many definitions each contract of the theorem reaches in addition to those before it, and how many lines they have."""
    known: set[tuple[str, str, str]] = set()
    for function in THEOREM:
        reached = repository.read_closure(repository.read_contract_targets(*listed_root(function)))
        specs = [(crate, module, name) for crate, kind, module, name in reached if kind == "specs"]
        nodes = {(crate, module, repository.read_holder_name(crate, module, name)) for crate, module, name in specs}
        texts = [repository.read_definitions(crate, module)[name] for crate, module, name in nodes - known]
        yield f"`{function}`" + (", in addition" if known else ""), [len(texts), sum(len(text.splitlines()) for text in texts)]
        known |= nodes


def count_clause_lines(text: str) -> int:
    """How many lines of a source are clauses of functions: up to the body, or to the semicolon of a function without one."""
    count, is_clause = 0, False
    for line in text.splitlines():
        is_clause = bool(CLAUSE.match(line)) or (is_clause and line.strip() not in ("{", "{}"))
        count += is_clause
        is_clause = is_clause and not line.endswith(";")
    return count


def read_crate_sizes(repository: Repository) -> Iterator[tuple[str, list[int]]]:
    """The lines of the code of all crates, of the clauses in it, of their definitions and of their proofs."""
    total = [0, 0, 0, 0]
    for crate in repository.crates:
        folders = [repository.top / "crates" / crate / kind for kind in ("src", "specs", "proofs")]
        files = [[path for path in folder.rglob("*") if path.suffix in (".rt", ".antt")] for folder in folders]
        code, definitions, proofs = ([file_io.read_bytes(path).decode() for path in paths] for paths in files)
        clauses = sum(count_clause_lines(text) for text in code)
        lines = [sum(len(text.splitlines()) for text in texts) for texts in (code, definitions, proofs)]
        total = [sum(pair) for pair in zip(total, (lines[0], clauses, *lines[1:]))]
    yield "all", total


def read_size_tables(repository: Repository) -> str:
    lines = [""]
    for head, rows in (
        ("Contract | Definitions that it reaches | Their lines", read_reached_sizes(repository)),
        ("Crates | Lines of code | Lines of clauses (included) | Lines of definitions | Lines of proofs", read_crate_sizes(repository)),
    ):
        lines += [f"| {head} |", "|" + "---|" * (head.count("|") + 1)]
        lines += [f"| {name} | " + " | ".join(f"{count:,}" for count in counts) + " |" for name, counts in rows]
        lines.append("")
    return "".join(line + "\n" for line in lines)


def is_near(old: str, new: str) -> bool:
    """Whether two texts are the same but for numbers that differ by at most a tenth: sizes change with every commit."""
    numbers = [[int(number.replace(",", "")) for number in NUMBER.findall(text)] for text in (old, new)]
    return NUMBER.sub("", old) == NUMBER.sub("", new) and all(10 * abs(one - other) <= max(one, other) for one, other in zip(*numbers))


Parts = Mapping[str, tuple[Callable[[Repository], str], Callable[[str, str], bool]]]
# The page, and the texts between its marks: each, and whether the page's may differ.
PAGES: dict[str, Parts] = {
    "docs/THEOREM.md": {"theorem": (read_theorem_text, str.__eq__), "sizes": (read_size_tables, is_near)},
}


def read_page_and_whether_right(repository: Repository, text: str, parts: Parts) -> tuple[str, bool]:
    """A page with the lists of a repository, and whether its own are right. Those that are right stay as they are."""
    are_right = True
    for name, (make, is_same) in parts.items():
        begin, end = f"<!-- the {name}: tools/reading-list --write -->\n", f"<!-- the end of the {name} -->\n"
        before, _, rest = text.partition(begin)
        old, found, after = rest.partition(end)
        if not found:
            raise Unknown(f"the page has no place for the {name}")
        new = make(repository)
        if not is_same(old, new):
            text, are_right = before + begin + new + end + after, False
    return text, are_right
