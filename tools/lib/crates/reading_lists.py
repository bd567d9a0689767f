"""The definitions below the promises of the engines, by the contracts that reach them."""

import re
import textwrap
from collections.abc import Iterable, Iterator
from pathlib import Path

from ..tool import file_io
from .specs import Node, Repository, Unknown

TOP = Path(__file__).resolve().parents[3]
# The functions whose contracts are read, in the order of the page: each by its crate and the module that it stands in.
ROOTS = [
    ("run_replay", "dam_engines", "replay"),
    ("run_clear", "dam_engines", "clear"),
    ("run_day", "dam_engines", "day"),
    ("whole_account", "dam_gate", "laws"),
    ("settle", "dam_gate", "settlement"),
    ("Gate::call", "dam_gate", "gate"),
    ("Pass::look", "dam_gate", "pass"),
    ("Gate::finish", "dam_gate", "gate"),
    ("dam_clear", "dam_c", "lib"),
]
# The definitions with which an auditor of a function begins, in the order in which they are read, under their subject.
FIRST = {
    "run_clear": {
        "The best selection": [
            "IsEligible", "IsBestSelection", "IsAdmissible", "IsAllowed", "accepted_of_group", "HasNoLoss", "family_surplus", "period_welfare",
        ],
        "The price and the execution of a period": [
            "IsClearingPrice", "price_between", "AreEnds", "IsSupporting", "Supports", "IsBest", "IsNoBetter",
        ],
        "The published results of a selection": ["ArePublished", "IsPeriodResult", "IsRowResult", "results_text"],
        "The book that a journal makes, and its problem": ["reasons", "refusal", "carried_out", "problem_of"],
        "The text that is printed for a journal": [
            "IsMadeFrom", "ReadsAs", "AreResultsWithin", "IsClearedWithin", "IsResultsText", "IsClearing",
        ],
        "How a run ends": ["Ends", "AreDevicesAfter"],
        "How a run can fail": ["IsRunFault", "IsTextFault", "IsBookFault", "IsUnfinished"],
    }
}
FEW = 3  # up to this number of definitions of a module are named, if it has more
WIDEST = 140


def read_function_lists(repository: Repository) -> Iterator[tuple[str, str, list[Node]]]:
    """For each function the definitions that its contract reaches, and those before it don't."""
    known: set[Node] = set()
    for function, crate, module in ROOTS:
        reached = repository.read_closure(repository.read_contract_targets(function, crate, module))
        new = [node for node in reached if node not in known]
        known.update(new)
        yield function, crate, new


def read_modules_by_crate(repository: Repository, nodes: Iterable[Node], kind: str) -> Iterator[tuple[str, list[tuple[str, list[str]]]]]:
    """The modules of some definitions or types by crate, each with its names: the crates in the order of crates.txt, the modules in that of
    `lib`."""
    found: dict[str, dict[str, list[str]]] = {}
    for crate, of, module, name in nodes:
        if of == kind:
            found.setdefault(crate, {}).setdefault(module, []).append(name)
    for crate in repository.crates:
        if crate in found:
            path = f"crates/{crate}/specs/Lib.antt" if kind == "specs" else f"crates/{crate}/src/lib.rt"
            order = re.findall(r"^(?:pub )?mod (\w+);?$", repository.read_text(path), re.M)
            yield crate, sorted(found[crate].items(), key=lambda item: order.index(item[0]))


def read_module_entry(repository: Repository, crate: str, kind: str, module: str, names: list[str]) -> str:
    """A module, with its names if only few of its definitions are needed."""
    is_part = kind == "specs" and len(names) <= FEW and len(names) < len(repository.read_definitions(crate, module))
    return f"`{module}`" + (" (" + ", ".join(f"`{name}`" for name in names) + ")" if is_part else "")


def read_modules_text(repository: Repository) -> str:
    """For each function the modules of which its contract needs more than those before it."""
    lines = []
    for number, (function, crate, nodes) in enumerate(read_function_lists(repository), 1):
        lines.append(f"{number}. For `{function}` (`{crate}`):")
        for kind, what in (("specs", ""), ("src", "types in ")):
            for home, found in read_modules_by_crate(repository, nodes, kind):
                whole = ", ".join(read_module_entry(repository, home, kind, module, names) for module, names in found)
                lines += sentence_lines(f"{what}`{home}/{kind}/`: {whole}", "   - ", " " * 5)
        if not nodes:
            lines.append("   - nothing more")
    return "".join(line + "\n" for line in lines)


def read_reached_definitions(repository: Repository, *root: str) -> dict[str, Node]:
    return {node[3]: node for node in repository.read_closure(repository.read_contract_targets(*root)) if node[1] == "specs"}


def read_few_definitions(repository: Repository) -> Iterator[tuple[str, str, str, str, str]]:
    """The definitions with which an auditor of a function begins: their subject, crate, module, name, and the sentence above."""
    for function, crate, module in ROOTS:
        reached = read_reached_definitions(repository, function, crate, module)
        for subject, names in FIRST.get(function, {}).items():
            for name in names:
                if name not in reached:
                    raise Unknown(f"the contract of {function} doesn't reach {name}")
                home, _, place, _ = reached[name]
                yield subject, home, place, name, repository.read_sentence(home, place, name)


def read_few_text(repository: Repository) -> str:
    """The few definitions themselves, each under its sentence."""
    texts = []
    for subject, crate, module, name, sentence in read_few_definitions(repository):
        lines = sentence_lines(sentence, "-- ", "-- ")
        texts.append("".join(line + "\n" for line in lines) + repository.read_definitions(crate, module)[name].rstrip("\n") + "\n")
    return "\n".join(texts)


def read_name_lines(repository: Repository, function: str) -> Iterator[str]:
    """Each definition that a contract reaches, by file, in the order of their use."""
    for root, crate, module in ROOTS:
        if root == function:
            for home, kind, name, word in repository.read_closure(repository.read_contract_targets(root, crate, module)):
                yield f"crates/{home}/{kind}/{name}.{'antt' if kind == 'specs' else 'rt'}: {word}"


def sentence_lines(words: str, first: str, rest: str) -> list[str]:
    return textwrap.wrap(words, WIDEST, initial_indent=first, subsequent_indent=rest, break_long_words=False, break_on_hyphens=False)


def read_definitions_text(repository: Repository) -> str:
    """The list of definitions: by crate and module, each that a public contract names or the reading lists reach, with its sentence. Every
    other definition of these modules has to have one too."""
    wanted = {node for node, _ in repository.read_cited()}
    for _, _, nodes in read_function_lists(repository):
        wanted.update((*node[:3], repository.read_holder_name(node[0], *node[2:])) for node in nodes if node[1] == "specs")
    lines = []
    for crate in repository.crates:
        for module in repository.read_own_modules(crate):
            sentences = {name: repository.read_sentence(crate, module, name) for name in repository.read_definitions(crate, module)}
            found = [name for name in sentences if (crate, "specs", module, name) in wanted]
            if found:
                lines += [f"## `{crate}/specs/{module}.antt`", "", *sentence_lines(repository.read_subject(crate, module), "", ""), ""]
                lines += [line for name in found for line in sentence_lines(f"`{name}`: {sentences[name]}", "- ", "  ")]
                lines.append("")
    return "\n" + "".join(line + "\n" for line in lines[:-1])


def read_definitions_page(repository: Repository) -> str:
    """The notation, and the list of the definitions below it."""
    return file_io.read_bytes(TOP / "docs" / "DEFINITIONS.md").decode() + read_definitions_text(repository)


def listed_root(function: str) -> tuple[str, str, str]:
    return next(root for root in ROOTS if root[0] == function)
