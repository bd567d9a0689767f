"""Where the bodies of a source file's functions lie, and under which names a check lists the functions."""

import re
from collections.abc import Mapping, Sequence
from typing import NamedTuple

# A comment, a string and a character are one token each, so that no brace inside them counts.
TOKEN = re.compile(
    r"""//[^\n]*|/\*.*?\*/|b?r(#*)".*?"\1|b?"(?:[^"\\]|\\.)*"|b?'(?:[^'\\\n]|\\[^\n][^'\n]*)'|\w+|[{}()\[\];]""", re.S
)
READ = re.compile(r"\w+\Z|[{}()\[\];]\Z")
TYPE = re.compile(r"^(?:pub(?:\([^)]*\))? )?(?:struct|enum) (\w+)", re.M)
CYCLE = re.compile(r"#\[cycle\((\w+)\)\]")
OWNERS = ("impl", "trait", "mod")
CLAUSES = ("requires", "ensures", "ghost", "measure")


class Token(NamedTuple):
    """A word or a bracket, and where it lies in the text."""

    word: str
    begins: int
    ends: int


class Owner(NamedTuple):
    """An impl, a trait or a module: the name under which a check lists its items, and the type if the impl is of no trait."""

    name: str
    type: str | None = None


class Function(NamedTuple):
    """A function with a body: its name, with the name of its impl before it, where the body lies, braces included, and the type if it
    is a method of no trait."""

    name: str
    begins: int
    ends: int
    type: str | None = None


def functions_of(text: str) -> list[Function]:
    """Returns the functions with a body, in the order of the text. A function inside another's body is part of that body."""
    tokens = [Token(it[0], it.start(), it.end()) for it in TOKEN.finditer(text) if READ.match(it[0])]
    found: list[Function] = []
    owners: list[tuple[int, Owner]] = []  # each with the depth of its items
    depth = at = 0
    while at < len(tokens):
        token = tokens[at]
        at += 1
        if token.word == "{":
            depth += 1
        elif token.word == "}":
            depth -= 1
            owners = [it for it in owners if it[0] <= depth]
        elif token.word in OWNERS and depth == (owners[-1][0] if owners else 0):
            head, opens, _ = text[token.begins :].partition("{")
            if opens and ";" not in head:
                owners.append((depth + 1, owner_of(head)))
        elif token.word == "fn" and at < len(tokens) and re.match(r"[A-Za-z_]", tokens[at].word):
            name = "::".join([*(it.name for _, it in owners), tokens[at].word])
            at, body = body_of(tokens, at + 1)
            if body:
                found.append(Function(name, *body, owners[-1][1].type if owners else None))
    return found


def body_of(tokens: Sequence[Token], at: int) -> tuple[int, tuple[int, int] | None]:
    """Returns the place after a function, whose first token after its name is at this place, and where its body lies, if any."""
    depth, is_clause, begins = 0, False, None
    while at < len(tokens):
        token = tokens[at]
        at += 1
        if depth == 0 and token.word == ";":
            return at, None
        if depth == 0 and token.word in CLAUSES:
            is_clause = True
        if depth == 0 and token.word == "{" and not is_clause:
            begins = token.begins
        if token.word in tuple("{([})]"):
            depth += 1 if token.word in tuple("{([") else -1
        if depth == 0 and token.word == "}":
            if begins is not None:
                return at, (begins, token.ends)
            is_clause = False
    return at, None


def owner_of(head: str) -> Owner:
    """Returns the owner of the items after a head such as `impl<T> From<Step<T>> for Way`, which is listed as WayFromStep: first the
    words of the type, then those of the trait, without the parameters of the impl."""
    kind = re.findall(r"\A\w+", head)[0]
    rest = " ".join(re.split(r"\bwhere\b", head[len(kind) :].replace("->", ""))[0].split())
    if kind != "impl":
        return Owner(re.findall(r"\w+", rest)[0])
    parameters, rest = parameters_of(rest)
    trait, is_of_trait, subject = rest.rpartition(" for ")
    words = [it for it in [*words_of(subject), *words_of(trait)] if it not in parameters]
    return Owner("".join(words), None if is_of_trait else words[0])


def parameters_of(text: str) -> tuple[list[str], str]:
    """Returns the names of the parameters with which a text begins, as in `<const N: usize, T: Into<u64>>`, and the text after them."""
    depth = 0
    for at, letter in enumerate(text):
        depth += {"<": 1, ">": -1}.get(letter, 0)
        if depth == 0:
            # A text that does not begin with `<` ends here too, with no parameter.
            inside, rest = text[1:at], text[at + 1 :] if at else text
            break
    while re.search(r"<[^<>]*>", inside):
        inside = re.sub(r"<[^<>]*>", "", inside)
    return [it.partition(":")[0].split()[-1] for it in inside.split(",") if it.strip()], rest


def words_of(text: str) -> list[str]:
    """Returns the names of a type or a trait as a check joins them: without paths and lifetimes, and each with a capital letter."""
    text = re.sub(r"'\w+|\w+::", "", text).replace("()", "Unit")
    return [it[0].upper() + it[1:] for it in re.findall(r"\w+", text)]


def parts_outside_functions(text: str, functions: Sequence[Function]) -> list[str]:
    """Returns the parts of a text before, between and after the bodies of its functions."""
    ends = [0, *(it.ends for it in functions)]
    begins = [*(it.begins for it in functions), len(text)]
    return [text[first:last] for first, last in zip(ends, begins)]


def leaders_of(text: str, functions: Sequence[Function]) -> list[Function]:
    """Returns for each function the one with whose proofs its own stand: of functions that call each other, the one that
    `#[cycle(NAME)]` names."""
    found = []
    for it, head in zip(functions, parts_outside_functions(text, functions)):
        owner, colons, _ = it.name.rpartition("::")
        led = CYCLE.search(head)
        found.append(it._replace(name=owner + colons + led[1]) if led else it)
    return found


def homes_of(texts: Mapping[str, str]) -> dict[str, str]:
    """Returns by name the file in which a crate, whose texts these are by path, defines a type; nothing of a name with two files."""
    found: dict[str, set[str]] = {}
    for path, text in texts.items():
        for name in TYPE.findall(text):
            found.setdefault(name, set()).add(path)
    return {name: paths.pop() for name, paths in found.items() if len(paths) == 1}


def listed_name(crate: str, path: str, function: Function, homes: Mapping[str, str]) -> str:
    """Returns the name under which a check lists a function of this file of the crate: a method of no trait stands in the module of its
    type, any other function in the owner of the file."""
    path = homes.get(function.type or "", path)
    module = re.sub(r"(^|/)(lib|main|mod)$", "", path[len("src/") : -len(".rt")])
    return "::".join([crate, *filter(None, module.split("/")), function.name])
