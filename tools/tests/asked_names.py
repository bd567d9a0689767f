"""The names that Python files ask of the repository's modules and classes: `module.name`, imported names, and the texts that mock.patch,
setattr and getattr are given. A name that its module or class doesn't define is stale."""

import ast
import functools
import re
import sys

from support import TOP

# Where a module is found by its name, after the folder of the file that imports it.
FOLDERS = [TOP / name for name in ("tools", "tests", "", "bench", "docs/drawings")]
FUNCTIONS = ast.FunctionDef, ast.AsyncFunctionDef
SCOPES = *FUNCTIONS, ast.Lambda, ast.ClassDef, ast.ListComp, ast.SetComp, ast.DictComp, ast.GeneratorExp
OF_MODULES = ("__all__", "__dict__", "__doc__", "__file__", "__name__", "__path__", "__spec__")
OF_PATCH = ("autospec", "create", "new_callable", "spec", "spec_set")
FIELD = re.compile(r"\{[^{}\n]*\}")  # of a text that is formatted


class Module:
    """A module of the repository, with a look-up for each of its names."""

    def __init__(self, names):
        self.names = {**dict.fromkeys(OF_MODULES, no_thing), **names}

    def has(self, name):
        return name in self.names


class Class:
    """A class of the repository. It may have each name if another base than a class of the repository has names."""

    def __init__(self, node, looks):
        self.bases, self.looks = node.bases, looks
        self.names = {**dict.fromkeys(dir(type), no_thing), **looks_of_scope(node, TOP)}
        stored = (one for one in ast.walk(node) if isinstance(one, ast.Attribute) and isinstance(one.ctx, ast.Store))
        self.names.update((one.attr, no_thing) for one in stored)

    def has(self, name):
        above = [thing_or_none(base, self.looks) for base in self.bases]
        return name in self.names or any(base is None or base.has(name) for base in above)


def no_thing():
    """The look-up of a name that is neither a module nor a class of the repository."""


@functools.cache
def read_module(path):
    names = looks_of_scope(ast.parse(path.read_text()), path.parent)
    if path.name == "__init__.py":
        for one in path.parent.iterdir():
            names.setdefault(one.stem, functools.partial(find_module_or_none, path.parent, one.stem))
    return Module(names)


def find_module_or_none(folder, dotted):
    """The module of a dotted name, as a file of a folder imports it; None if it isn't of the repository."""
    parts = dotted.split(".")
    for root in [] if parts[0] in sys.stdlib_module_names else [folder, *FOLDERS]:
        path = root.joinpath(*parts)
        for found in (path.with_suffix(".py"), path / "__init__.py"):
            if found.is_file():
                return read_module(found)
    return None


def find_member_or_none(folder, dotted, name):
    """The module or the class that `from dotted import name` imports."""
    module = find_module_or_none(folder, dotted) if dotted else None
    return module.names[name]() if module and name in module.names else find_module_or_none(folder, f"{dotted}.{name}".lstrip("."))


def looks_of_import(node, folder):
    """Each name that an import binds, with its look-up."""
    for one in node.names:
        first = one.name.partition(".")[0]
        name, whole = one.asname or first, one.name if one.asname else first
        if isinstance(node, ast.Import):
            yield name, functools.partial(find_module_or_none, folder, whole)
        else:
            above = [folder, *folder.parents][max(node.level - 1, 0)]
            yield name, functools.partial(find_member_or_none, above, node.module or "", one.name)


def nodes_of_scope(node):
    """The nodes below one, without those of scopes below it."""
    for child in ast.iter_child_nodes(node):
        yield child
        if not isinstance(child, SCOPES):
            yield from nodes_of_scope(child)


def looks_of_scope(node, folder, outer=None):
    """The names that a module, a class, a function or a comprehension binds, each with its look-up."""
    looks = {}
    for one in nodes_of_scope(node):
        if isinstance(one, ast.arguments):
            looks.update((inner.arg, no_thing) for inner in ast.walk(one) if isinstance(inner, ast.arg))
        elif isinstance(one, ast.Name) and isinstance(one.ctx, ast.Store):
            looks.setdefault(one.id, no_thing)
        elif isinstance(one, (*FUNCTIONS, ast.ExceptHandler)):
            looks[one.name] = no_thing
        elif isinstance(one, ast.Global):
            looks.update((name, no_thing) for name in one.names)
        elif isinstance(one, ast.ClassDef):
            looks[one.name] = functools.partial(Class, one, {**(outer or {}), **looks})
        elif isinstance(one, (ast.Import, ast.ImportFrom)):
            looks.update(looks_of_import(one, folder))
    return looks


def thing_or_none(node, looks):
    """The module or the class that an expression names."""
    if isinstance(node, ast.Name):
        return looks.get(node.id, no_thing)()
    above = thing_or_none(node.value, looks) if isinstance(node, ast.Attribute) else None
    return above.names[node.attr]() if above and node.attr in above.names else None


def texts_of_call(node, looks):
    """The things and the names of a call that takes names as texts."""
    called, given = getattr(node.func, "attr", getattr(node.func, "id", "")), node.args
    texts = [one.value if isinstance(one, ast.Constant) and isinstance(one.value, str) else None for one in given]
    is_lenient = called == "getattr" and len(given) > 2
    if called in ("object", "setattr", "getattr", "delattr") and len(given) > 1 and texts[1] and not is_lenient:
        yield thing_or_none(given[0], looks), texts[1]
    elif called in ("patch", "multiple") and given:
        dotted = (texts[0] or "").rpartition(".")[::2] if called == "patch" else (texts[0] or "", "")
        thing = thing_or_none(ast.parse(dotted[0] or "0", mode="eval").body, {"lib": functools.partial(find_module_or_none, TOP, "lib")})
        thing = thing_or_none(given[0], looks) if texts[0] is None else thing
        names = [dotted[1], *(one.arg for one in node.keywords if called == "multiple")]
        yield from ((thing, name) for name in names if name and name not in OF_PATCH)


def asked_names(node, folder, looks):
    """Each name that the code below a node asks of a module or a class of the repository, and whether that has it."""
    for child in ast.iter_child_nodes(node):
        inner = looks
        if isinstance(child, SCOPES):
            inner = looks if isinstance(child, ast.ClassDef) else {**looks, **looks_of_scope(child, folder, looks)}
        asked = []
        if isinstance(child, ast.Attribute):
            asked = [(thing_or_none(child.value, looks), child.attr)]
        elif isinstance(child, ast.Call):
            asked = texts_of_call(child, looks)
        elif isinstance(child, ast.ImportFrom):
            above = [folder, *folder.parents][max(child.level - 1, 0)]
            asked = [(find_module_or_none(above, child.module), one.name) for one in child.names if child.module]
        elif isinstance(child, ast.Constant) and isinstance(child.value, str) and "import " in child.value:
            yield from asked_names_of_text(FIELD.sub("0", child.value), folder)
        yield from ((name, thing.has(name)) for thing, name in asked if thing)
        yield from asked_names(child, folder, inner)


def asked_names_of_text(text, folder):
    """The same of a text, if it is code."""
    try:
        tree = ast.parse(text)
    except (SyntaxError, ValueError):
        return
    yield from asked_names(tree, folder, looks_of_scope(tree, folder))
