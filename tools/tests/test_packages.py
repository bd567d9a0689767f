"""The packages of tools/lib: each imports only those that its docstring names, nothing private crosses, and no two import each other.
And the files in Python of all folders: no definition hides another one, the names of functions say generators, their types or names say None,
and each name that is asked of a module is one that it defines."""

import ast
import collections
import functools
import re
import runpy
import subprocess
import sys
import unittest
from pathlib import Path
from unittest import mock

import asked_names
from support import TOP

LIB = TOP / "tools" / "lib"
PACKAGES = sorted(path.parent.name for path in LIB.glob("*/__init__.py"))
# Code that asks for stale names, each once, and for names that modules have, or that no module is asked for.
STALE = """
from market import laws
from lib.base import stale_1, text
from lib.journal.book import Book, stale_2
from lib import journal as of_journals

text.mw, text.stale_3, of_journals.book.Book, of_journals.stale_4, laws.stale_5
Book.copy, Book.stale_6
text.stale_7 = text.mw
mock.patch.object(text, "mw"), mock.patch.object(text, "stale_8"), mock.patch.object(Book, "stale_9")
mock.patch.multiple(text, mw=1, stale_10=2), mock.patch.multiple("lib.base.text", stale_11=2)
mock.patch("lib.base.text.mw"), unittest.mock.patch("lib.base.text.stale_12"), mock.patch("sys.stderr", 1)
setattr(text, "stale_13", 1), getattr(text, "stale_14"), getattr(text, "other", None)
CODE = "from lib.tool import modules\\nmodules.has_module({words}), modules.stale_15\\n"


def words(text):
    return text.other, [journal.other for journal in text], json.other


def later():
    from lib.results import results

    return results.stale_16, lambda: results.stale_17, text.stale_18
"""
# Functions, of which the first three have names that the table of tools/NOTES.md has for others, and one has a wrong type.
MISNAMED = """
def add_and_return_lines(): yield 1
def find_file(path): return path if path else None
def answer(key):
    for found in key:
        return found
    return None
def kept_or_none(): return None if late else 1
def typed(key) -> int | None: return None if late else 1
def typed_or_none(key) -> int: return None if late else 1
def try_file(): return None if late else "late"
def parse_or_note_fault(): return None if late else 1
def end(): return None
@contextlib.contextmanager
def opening_and_return(): yield 1
"""
# Definitions, of which the last A, b, C, D, E and F hide others. C is bound to two numbers, and D twice to one.
HIDDEN = """
def a(): pass
class A:
    def b(self): pass
    def a(self): pass
    def b(self): pass
    F = 1
    F = 2
class A: pass
C, D = 1, (2, 3)
C: int = 2
(D, E), (G, *H) = ((2, 3), 4), (5, 6)
def E(): pass
I, J = J, I = read()
"""
# A class whose constructor reads a file, and two whose classmethod or constructor doesn't.
CONSTRUCTORS = """
class Reading:
    def __init__(self, path): self.text = path.read_text()
class Read:
    @classmethod
    def read(cls, path): return cls(path.read_text())
class Late:
    def __init__(self, path): self.read = lambda: path.read_text()
"""
EFFECT = re.compile(
    r"^(capture|compile|connect|fetch|find|list|print|read|run|start|write)_|^(Popen|TemporaryDirectory|connect|copy|create_task|iterdir"
    r"|listdir|makedirs|mkdir|mkdtemp|open|read|read_bytes|read_text|run|start|write|write_bytes|write_text)$"
)
# The constructors that have an effect: tasks of a listener, which is made where it is started; the parser reads a docstring; a proof reads
# the arguments of its program; others are of tests and of the bench. Definitions call a match's `start`, which has none.
WITH_EFFECT = {
    "bench/plain/office.py": {"PlainOffice"},
    "manual/definitions.py": {"Definitions"},
    "tests/desk/journals.py": {"Journal"},
    "tests/hostile/right_answers.py": {"RightAnswer"},
    "tests/launcher/repository.py": {"Repository", "TerminalRun"},
    "tests/shared/browser.py": {"BrowserTab"},
    "tools/lib/office/connections.py": {"Listener", "Server"},
    "tools/lib/proving/rt_run.py": {"Proof"},
    "tools/lib/tool/command_line.py": {"Parser"},
}
NONE = re.compile("_or_none$|^try_|_or_note_faults?$")  # the names of functions without types that may return None
NONE_IN_TYPE = re.compile(r"\b(None|Optional|Any|Json|object)\b")
# What may be None with another name: a string of a table by its number, as of a dictionary; a part of a workbook, or a fault if it has
# two; a value of JSON, of which null is one.
ALSO_NONE = {"get", "only_part_or_refuse", "typed_value"}
# How files of unit tests, scripts of a folder of tests/, and those of tests/ itself find their modules; and those that need the folder of
# the modules that they test besides.
OF_UNITS = 'sys.path[:0] = [f"{TOP}/tests", f"{TOP}/tools"]'
OF_FOLDERS = 'sys.path[:1] = [str(Path(__file__).resolve().parents[2] / folder) for folder in ("tests", "tools")]'
OF_SCRIPTS = 'sys.path.insert(1, f"{sys.path[0]}/../tools")'
OF_SHELLS = ["tests/desk/main.py", "tests/hostile/main.py"]  # the script `run` of the shell starts them
OF_BENCH, OF_MANUAL = 'sys.path.insert(0, f"{TOP}/bench")', "sys.path.append(str(TOP))"
OF_TESTED = {
    "tests/fuzz/enumerated.py": OF_BENCH,
    "tests/packages/run": 'sys.path.append(f"{sys.path[0]}/..")',
    "tools/tests/test_bench.py": OF_BENCH,
    "tools/tests/test_drawings.py": 'sys.path.insert(0, f"{TOP}/docs/drawings")',
    "tools/tests/test_manual.py": OF_MANUAL,
    "tools/tests/test_measured.py": OF_BENCH,
}
MAY = re.compile(r"^It may import: (.*)\.$", re.MULTILINE)


def allowed(package):
    """The packages that a docstring names."""
    (words,) = MAY.findall(ast.get_docstring(ast.parse((LIB / package / "__init__.py").read_text())))
    return set() if words == "nothing of tools/lib" else set(words.split(", "))


def files_in_python():
    """The files in Python, with the scripts that start it, each once. Folders that a clone ignores are left out."""
    folders = [TOP / name for name in ("bench", "docs", "examples", "library", "manual", "package", "tests", "tools")]
    for path in [*TOP.iterdir(), *(path for folder in folders for path in folder.rglob("*"))]:
        if path.is_file() and (path.suffix == ".py" or not path.suffix and re.match(rb"#!.*python", path.read_bytes()[:80])):
            yield path.resolve()


@functools.cache
def parsed_files():
    """The path in the clone of each file in Python, and its tree."""
    return [(str(path.relative_to(TOP)), ast.parse(path.read_text())) for path in files_in_python()]


def modules_of_other_folders(path, tree):
    """What a file of tests/ or tools/tests imports from another folder of these than its own and tests/shared."""
    folders = [TOP / "tools" / "tests", *(one for one in (TOP / "tests").iterdir() if one.is_dir() and one.name != "shared")]
    own = TOP / Path(path).parent
    elsewhere = {one.name for one in folders} | {module.stem for one in folders for module in one.glob("*.py")}
    elsewhere -= {own.name, *(it.stem for it in own.iterdir()), *(it.name for it in TOP.iterdir())}
    for node in ast.walk(tree):
        asked = [node.module or ""] if isinstance(node, ast.ImportFrom) else [name.name for name in getattr(node, "names", [])]
        if isinstance(node, (ast.Import, ast.ImportFrom)) and not getattr(node, "level", 0):
            yield from (name for name in asked if name.partition(".")[0] in elsewhere)


def imports(path):
    """The other packages of which a module imports something, and the names that it imports."""
    for node in ast.walk(ast.parse(path.read_text())):
        if isinstance(node, ast.ImportFrom):
            module = (node.module or "").split(".")
            if node.level == 2:
                yield module[0], [name.name for name in node.names]
            elif node.level == 0 and module[0] == "lib":
                yield module[1], [name.name for name in node.names]


def private_names(tree):
    """The private names that are asked of what is imported from tools/lib."""
    nodes = list(ast.walk(tree))
    froms = [node for node in nodes if isinstance(node, ast.ImportFrom) and (node.level or "lib" in (node.module or "").split("."))]
    imported = {name.asname or name.name for node in froms for name in node.names}
    for node in nodes:
        if isinstance(node, ast.Attribute) and re.match(r"_[^_]", node.attr) and getattr(node.value, "id", "") in imported:
            yield f"{node.value.id}.{node.attr}"


def definitions(body):
    """The names that a module or a class defines: those of classes and functions, and a constant's for each statement that binds it."""
    for node in body:
        if isinstance(node, (ast.ClassDef, ast.FunctionDef, ast.AsyncFunctionDef)):
            yield node.name
        elif isinstance(node, (ast.Assign, ast.AnnAssign)) and node.value:
            targets = node.targets if isinstance(node, ast.Assign) else [node.target]
            names = [name for target in targets for name in ast.walk(target) if isinstance(name, ast.Name)]
            yield from {name.id for name in names if isinstance(name.ctx, ast.Store)}


def hidden_names(tree):
    """The names that a module or a class gives to several of its classes, functions or values, of which the last hides the others."""
    for node in ast.walk(tree):
        if isinstance(node, (ast.Module, ast.ClassDef)):
            yield from (name for name, count in collections.Counter(definitions(node.body)).items() if count > 1)


def own_nodes(function):
    """The nodes of a function without those of functions within it."""
    left = list(function.body)
    while left:
        node = left.pop()
        yield node
        if not isinstance(node, (ast.FunctionDef, ast.AsyncFunctionDef, ast.ClassDef, ast.Lambda)):
            left.extend(ast.iter_child_nodes(node))


def may_be_none(value):
    """Whether a returned expression may be None, as far as it shows that."""
    if isinstance(value, ast.IfExp):
        return may_be_none(value.body) or may_be_none(value.orelse)
    return value is None or isinstance(value, ast.Constant) and value.value is None


def misnamed_functions(tree):
    """The generators that are named as functions with a returned value, and the functions that may return None or a value and don't say
    so by their types or names."""
    for function in ast.walk(tree):
        if not isinstance(function, (ast.FunctionDef, ast.AsyncFunctionDef)):
            continue
        nodes = list(own_nodes(function))
        returned = [node.value for node in nodes if isinstance(node, ast.Return)]
        if any(isinstance(node, (ast.Yield, ast.YieldFrom)) for node in nodes):
            is_context = any("contextmanager" in ast.unparse(each) for each in function.decorator_list)
            if re.search("_and_(return|yield|read)", function.name) and not is_context:
                yield function.name
        elif any(map(may_be_none, returned)) and not all(isinstance(one, ast.Constant) or one is None for one in returned):
            is_named = NONE.search(function.name) or function.name in ALSO_NONE
            if not (is_named if function.returns is None else NONE_IN_TYPE.search(ast.unparse(function.returns))):
                yield function.name


def constructors_with_effect(tree):
    """The classes whose constructor calls a function that has an effect by its name."""
    for one in ast.walk(tree):
        if isinstance(one, ast.ClassDef):
            nodes = [node for function in one.body if getattr(function, "name", "") == "__init__" for node in own_nodes(function)]
            called = [ast.unparse(node.func).rpartition(".")[2] for node in nodes if isinstance(node, ast.Call)]
            if any(map(EFFECT.search, called)):
                yield one.name


class Packages(unittest.TestCase):
    def test_every_module_is_in_a_package(self):
        """The start of the tools is a text, which they run before they can import a module."""
        self.assertEqual({path.name for path in LIB.glob("*.py")}, {"__init__.py", "start.py"})

    def test_imports_are_those_of_the_docstring(self):
        for package in PACKAGES:
            used = set()
            for path in (LIB / package).glob("*.py"):
                for other, names in imports(path):
                    with self.subTest(path=path.name, package=package, imports=other):
                        self.assertIn(other, PACKAGES)
                        self.assertFalse([name for name in names if name.startswith("_")])
                    used.add(other)
            with self.subTest(package=package):
                self.assertEqual(used - {package}, allowed(package))

    def test_no_private_name_is_asked_of_another_module(self):
        self.assertEqual(list(private_names(ast.parse("from ..journal import book\nbook._rows, book.rows, self._rows"))), ["book._rows"])
        for path, tree in parsed_files():
            with self.subTest(path=path):
                self.assertEqual(list(private_names(tree)), [])

    def test_no_definition_hides_another(self):
        self.assertEqual(sorted(hidden_names(ast.parse(HIDDEN))), ["A", "C", "D", "E", "F", "b"])
        for path, tree in parsed_files():
            with self.subTest(path=path):
                self.assertEqual(list(hidden_names(tree)), [])

    def test_names_say_generators_and_none(self):
        planted = ["add_and_return_lines", "find_file", "answer", "typed_or_none"]
        self.assertEqual(list(misnamed_functions(ast.parse(MISNAMED))), planted)
        for path, tree in parsed_files():
            with self.subTest(path=path):
                self.assertEqual(list(misnamed_functions(tree)), [])

    def test_constructors_have_no_effect(self):
        self.assertEqual(list(constructors_with_effect(ast.parse(CONSTRUCTORS))), ["Reading"])
        for path, tree in parsed_files():
            with self.subTest(path=path):
                self.assertLessEqual(set(constructors_with_effect(tree)), WITH_EFFECT.get(path, set()))

    def test_scripts_alone_set_the_path_of_modules(self):
        """A script, or a module of tests, says where its modules are. So these don't depend on the order of imports."""
        for path, tree in parsed_files():
            name = Path(path).name
            is_started = (TOP / path).read_bytes().startswith(b"#!") or name.startswith("test_") or path in OF_SHELLS
            if path.startswith("tests/") and not is_started:
                with self.subTest(path=path):
                    asked = [ast.unparse(node) for node in ast.walk(tree) if isinstance(node, ast.Attribute)]
                    self.assertNotIn("sys.path", asked)

    def test_a_started_process_may_read_the_scripts_of_folders_again(self):
        """A process of `multiprocessing` runs the script that started it under another name, with the path of modules that is set already."""
        for script in sorted(TOP.glob("tests/*/run")):
            if b"python3" in script.read_bytes().splitlines()[0]:
                with self.subTest(script=script), mock.patch.object(sys, "path", list(sys.path)) as path:
                    before = list(path)
                    runpy.run_path(str(script), run_name="__mp_main__")
                    self.assertEqual(path, before)

    def test_an_isolated_start_finds_the_modules(self):
        """A script of tests may start itself again with Debian's Python, which leaves the script's folder out of the path of modules."""
        for script in sorted(path for path in TOP.glob("tests/*/*") if path.is_file() and OF_FOLDERS.encode() in path.read_bytes()):
            ran = subprocess.run([sys.executable, "-I", "-B", script, "--help"], capture_output=True, text=True)
            with self.subTest(script=script):
                self.assertNotRegex(ran.stderr, r"No module named '(shared|lib|market|\w+\.main)'")

    def test_no_file_is_a_link(self):
        """`rt ci` refuses a clone that has one."""
        shown = subprocess.run(["git", "-C", TOP, "ls-files", "--stage"], capture_output=True, text=True)
        if shown.returncode:
            self.skipTest("git")
        self.assertEqual([line for line in shown.stdout.splitlines() if line.startswith("120000")], [])

    def test_tests_find_their_modules_in_one_way(self):
        """Each adds tests/ and tools/, and only the folder of modules that it tests besides."""
        for path, tree in parsed_files():
            if path.startswith(("tests/", "tools/tests/")):
                statements = {ast.unparse(node) for node in ast.walk(tree) if isinstance(node, ast.stmt)}
                used = {one for one in statements if re.match(r"(del )?sys\.path\b", one)}
                of_kind = OF_UNITS if "/test_" in path or "/tests/" in path else OF_FOLDERS if path.count("/") == 2 else OF_SCRIPTS
                right = {ast.unparse(ast.parse(one)) for one in (of_kind, OF_TESTED.get(path, of_kind))}
                with self.subTest(path=path):
                    self.assertLessEqual(used, right)

    def test_tests_import_what_their_folder_and_shared_have(self):
        planted = ast.parse("import desk.device\nimport full, package\nfrom crashes import check_crashes\nfrom shared import counts\nimport laws")
        self.assertEqual(list(modules_of_other_folders("tests/market/run", planted)), ["desk.device", "full", "crashes"])
        for path, tree in parsed_files():
            if path.startswith(("tests/", "tools/tests/")):
                with self.subTest(path=path):
                    self.assertEqual(list(modules_of_other_folders(path, tree)), [])

    def test_names_asked_of_modules_are_theirs(self):
        """Among others, in this file: the scan finds each stale name of STALE."""
        for path in files_in_python():
            planted = [f"stale_{number}" for number in range(1, 19)] if path == Path(__file__).resolve() else []
            with self.subTest(path=str(path.relative_to(TOP))):
                asked = asked_names.asked_names_of_text(path.read_text(), path.parent)
                self.assertEqual([name for name, is_there in asked if not is_there], planted)

    def test_the_notes_have_each_package(self):
        rows = re.findall(r"^\| (`.*?`) \|", (TOP / "tools" / "NOTES.md").read_text(), re.MULTILINE)
        self.assertEqual(sorted(re.findall(r"`(\w+)`", "".join(rows))), PACKAGES)

    def test_tables_have_each_module(self):
        """The notes on the tools have the modules of each package, and the docstring of the office those of its own."""
        for row in re.findall(r"^\| `.*$", (TOP / "tools" / "NOTES.md").read_text(), re.MULTILINE):
            first, *cells = row.strip("|").split(" | ")
            packages = [name for name in re.findall(r"`(\w+)`", first) if name in PACKAGES]
            if packages == ["office"]:
                cells = re.findall(r"^\| (`.*?) \|", (LIB / "office" / "__init__.py").read_text(), re.MULTILINE)
            if packages:
                with self.subTest(packages=packages):
                    modules = sorted(path.stem for package in packages for path in (LIB / package).glob("*.py") if path.stem != "__init__")
                    self.assertEqual(sorted(re.findall(r"`(\w+)`", " ".join(cells))), modules)

    def test_no_package_needs_itself(self):
        left = {package: allowed(package) for package in PACKAGES}
        while left:
            lowest = [package for package, needs in left.items() if not needs & left.keys()]
            self.assertTrue(lowest, f"these import each other: {left}")
            for package in lowest:
                del left[package]


if __name__ == "__main__":
    unittest.main()
