"""Facts that several pages need: each page has the same numbers as the code, and explanations stand on one page."""

import ast
import csv
import re
import runpy
import sys
import unittest
from unittest import mock

from support import TOP, worked

from lib.base import rules
from lib.journal import book
from lib.runs import by_library
from lib.crates import crates, reading_lists, theorem
from lib.crates.specs import Repository
from lib.proving import plan

PAGES = [TOP / "README.md", TOP / "CHANGELOG.md", TOP / "library" / "dam.h", *sorted((TOP / "docs").glob("*.md"))]
PAGES += sorted((TOP / "crates").glob("*/*.md"))
FORMATS = (TOP / "docs" / "FORMATS.md").read_text()
CHECKLISTS = TOP / "crates" / "CHECKLISTS.md"
# The limit on nodes as a number, and a comment's line that has it or the limit on blocks.
OF_NODES = re.compile(rf"\b{f'{by_library.MOST_NODES:,}'.replace(',', '[_,]?')}\b")
BLOCKS = rf"\b{rules.MOST_BLOCKS}\b"
OF_BLOCKS = re.compile(rf"\s*//.*(?:{OF_NODES.pattern}|{BLOCKS}.{{0,60}}\bblocks?\b|\bblocks?\b.{{0,60}}{BLOCKS})")
# The files that may have the limit on nodes.
WITH_NUMBERS = ["*.md", "docs/*.md", "library/*", "examples/**/*", "bench/*.py", "bench/parts/*.py", "crates/**/*.rt", "crates/**/*.antt", "crates/**/*.md"]
WITH_NUMBERS += ["crates/**/*.edit", "tests/**/*", "tools/*", "tools/**/*.py"]
NUMBER = r"(-?\d[\d,]*)"
CONSTANT = re.compile(r"^pub const (\w+): \w+ = (-?[\d_]+);$", re.MULTILINE)
FUNCTION = re.compile(r"^\s*(?:pub(?:\(crate\))? )?(?:extern \"C\" )?fn \w+", re.MULTILINE)
NUMERALS = "one two three four five six seven eight nine ten".split()
# A function with its contract, up to its body or semicolon; and a function that a page names, with names in brackets.
HEAD = re.compile(r"^ *(?:pub(?:\(crate\))? )?(?:extern \"C\" )?fn (\w+)\b(.*?)(?:^ *\{|;$)", re.MULTILINE | re.DOTALL)
NAMED = re.compile(r"`([\w:]+)` \(((?:`\w+`(?:, |, and )?)+)\)")
# How a limit is said, and its numbers. At the first two words of a line a comment may begin.
LIMITS = {
    rf"{NUMBER} hourly orders and {NUMBER} blocks": (rules.MOST_HOURLY, rules.MOST_BLOCKS),
    rf"more than {NUMBER} blocks or {NUMBER} hourly orders": (rules.MOST_BLOCKS, rules.MOST_HOURLY),
    rf"(?:up to|at most|has|have) {NUMBER} hourly orders": (rules.MOST_HOURLY,),
    rf"whole cents(?: per MWh,)? from {NUMBER} to {NUMBER}": (rules.LOWEST_PRICE, rules.HIGHEST_PRICE),
    rf"\| {NUMBER} \| below {NUMBER} \| `high`": (rules.LOWEST_PRICE, rules.HIGHEST_PRICE),
    rf"\| above {NUMBER} \| {NUMBER} \| `low`": (rules.LOWEST_PRICE, rules.HIGHEST_PRICE),
    rf"ask of {NUMBER} or a bid of {NUMBER} doesn't narrow": (rules.HIGHEST_PRICE, rules.LOWEST_PRICE),
    rf"the midpoint of the range, {NUMBER}": ((rules.LOWEST_PRICE + rules.HIGHEST_PRICE) // 2,),
    rf"fixed, from {NUMBER} to {NUMBER} EUR/MWh": (rules.LOWEST_PRICE // 100, rules.HIGHEST_PRICE // 100),
    rf"`HourlyFull` \| submit of an hourly order: the book holds {NUMBER} \|": (rules.MOST_HOURLY,),
    rf"`BlocksFull` \| submit of a block: the book holds {NUMBER} \|": (rules.MOST_BLOCKS,),
    rf"whole tenths of a MW, from 1 to {NUMBER}": (rules.GREATEST_VOLUME,),
    rf"at most {NUMBER} bytes": (rules.MOST_BYTES,),
    rf"more than {NUMBER} bytes": (rules.MOST_BYTES,),
    rf"bytes and {NUMBER} records": (rules.MOST_RECORDS,),
    rf"more than {NUMBER} records": (rules.MOST_RECORDS,),
    rf"(?:at most|up to) {NUMBER} commands(?: of at most {NUMBER} participants)?": (
        {rules.MOST_DAY_COMMANDS, rules.MOST_RECORDS - 1},
        {rules.MOST_DAY_PARTICIPANTS, None},
    ),
    rf"1 to {NUMBER} \| {NUMBER} \| stop": (by_library.MOST_NODES, by_library.MOST_NODES),
    r"hours \((\d+), (\d+) or (\d+)\) or all quarter-hours \((\d+), (\d+) or (\d+)\)": tuple(rules.DAYS),
    r"(\d+), (\d+) or (\d+) hours, and of (\d+), (\d+) or (\d+) quarter-hours": tuple(rules.DAYS),
    rf"On a day of hours,? {NUMBER} (?:of these )?units": (1_000,),
    rf"on a day of quarter-hours, in which 1 MW makes 0.25 MWh, {NUMBER} are": (4_000,),
}
# Explanations that stand once, each with its page; the others link to it. The header stands alone, and the changelog has each version's.
STATED_ONLY_IN = {
    r"whole cents per MWh": ["RULES.md", "dam.h"],
    r"cents per MWh times tenths of a MW, and are": ["RULES.md"],
    r"0.25 MWh, 4,000 are\b": ["RULES.md"],
    r"\b92, 96 or 100\b": ["CHANGELOG.md", "RULES.md"],
    rf"\b{rules.MOST_BLOCKS} blocks (?:\(|or 4,000 )|\bat most 4,000 hourly": ["README.md", "RULES.md"],
    r"the launcher `\./dam` has no program": ["FORMATS.md"],
    r"\| `device: read` \|": ["FORMATS.md"],
    r"no run is known": ["FORMATS.md"],
    r"ends \(25 minutes\)": ["README.md"],
    r"never change the results": ["USING.md"],
    r"\| `--workers N` \|": ["USING.md"],
    r"[Tt]ies go to the larger bought volume, and|Ties go to the selection": ["RULES.md", "RULES.md"],
    r"\b\d+ of `must-fail/`": ["CHECK.md"],
    r"from memory": ["RULES.md", "THEOREM.md"],
    r"\bdozens of times\b": ["dam.h"],
    r"each of the 2\^n selections": ["AUDIT.md"],
    r"refused orders don't appear in the results": ["USING.md"],
    r"critical path dominates": ["CHECK.md"],
    r"[Bb]est family\* is": ["RULES.md"],
    r"whole cents from the least, `low`, to the greatest": ["RULES.md"],
    r"\| `HasChildren` \|": ["RULES.md"],
    r"names whose hashes collide in the map": ["DECISIONS.md"],
}


def plain(page):
    """A page's text without the marks of comments and with single spaces."""
    return re.sub(r"\s+", " ", re.sub(r"^ \* ?", "", page.read_text(), flags=re.MULTILINE))


def whole_number(number):
    return number and int(number.replace(",", ""))


def imported(path):
    """The modules of tools/lib that a file imports, all or in part."""
    for node in ast.walk(ast.parse(path.read_text())):
        if isinstance(node, ast.ImportFrom):
            parts = (node.module or "").split(".")
            outer = {0: 2, 1: 0, 2: 1}[node.level]  # how many parts name tools/lib and the package
            yield from parts[outer : outer + 1] if parts[outer:] not in ([], [""]) else [name.name for name in node.names]


class Facts(unittest.TestCase):
    def test_each_page_has_the_same_limits(self):
        for said, wanted in LIMITS.items():
            counted = 0
            for page in PAGES:
                for match in re.finditer(said, plain(page)):
                    with self.subTest(page=page.name, said=match[0]):
                        counted += 1
                        for number, right in zip(map(whole_number, match.groups()), wanted):
                            self.assertIn(number, right if isinstance(right, set) else {right})
            with self.subTest(said=said):
                self.assertGreater(counted, 0)

    def test_the_tools_have_the_limits_of_the_code(self):
        texts = [path.read_text() for path in sorted((TOP / "crates" / "dam_book" / "src").glob("*.rt"))]
        found = {name: int(number) for text in texts for name, number in CONSTANT.findall(text)}
        wanted = {
            "LOWEST_PRICE": rules.LOWEST_PRICE,
            "HIGHEST_PRICE": rules.HIGHEST_PRICE,
            "GREATEST_VOLUME": rules.GREATEST_VOLUME,
            "LAST_PERIOD": rules.GREATEST_PERIOD,
            "MOST_HOURLY": rules.MOST_HOURLY,
            "MOST_BLOCKS": rules.MOST_BLOCKS,
            "MOST_OF_GROUP": rules.MOST_OF_GROUP,
            "MOST_ENTRIES": rules.MOST_RECORDS - 1,
            "LONGEST_NAME": rules.LONGEST_NAME,
            "LONGEST_PARTICIPANT": rules.LONGEST_PARTICIPANT,
        }
        self.assertEqual({name: found.get(name) for name in wanted}, wanted)

    def test_the_reasons_stand_in_one_order(self):
        """The tools and the rules have the reasons of the definition, in the order in which the book looks for them."""
        definitions = (TOP / "crates" / "dam_book" / "specs" / "Book.antt").read_text()
        reasons = re.findall(r"\w+", re.search(r"^reasons =\n((?: +.+\n)+)", definitions, re.MULTILINE)[1])
        words = dict(re.findall(r'^reason_word (\w+) = codes "(\w+)"$', definitions, re.MULTILINE))
        rows = re.findall(r"^\| `(\w+)` \|", (TOP / "docs" / "RULES.md").read_text().partition("| Reason |")[2], re.MULTILINE)
        self.assertEqual(sorted(words), sorted(reasons))
        self.assertEqual(list(book.REASONS), [words[reason] for reason in reasons])
        self.assertEqual(rows[: len(reasons) + 1], list(book.REASONS))

    def test_the_greatest_sums(self):
        """As numbers of cents per MWh times tenths of a MW, which the law `limits` of `dam_blocks` states."""
        price = max(-rules.LOWEST_PRICE, rules.HIGHEST_PRICE)
        hourly = rules.MOST_HOURLY * rules.GREATEST_VOLUME * price
        blocks = rules.MOST_BLOCKS * rules.GREATEST_PERIOD * rules.GREATEST_VOLUME * price
        surplus = rules.GREATEST_PERIOD * rules.GREATEST_VOLUME * (rules.HIGHEST_PRICE - rules.LOWEST_PRICE)
        law = (TOP / "crates" / "dam_blocks" / "src" / "laws.rt").read_text()
        stated = {name: int(number) for name, number in re.findall(r"ensures (\w+)_is \{ greatest_\w+ ≡ (\d+) \}", law)}
        wanted = {"hourly_value": hourly, "block_value": blocks, "surplus": surplus, "selection_welfare": hourly + blocks}
        self.assertEqual(stated, wanted)

    def test_the_rules_at_a_terminal_show_the_limits(self):
        advice = (TOP / "crates" / "dam_cli" / "src" / "advice.rt").read_text()
        days = [str(periods) for periods in sorted(rules.DAYS)]
        for rule in (
            f"a day takes {rules.MOST_DAY_COMMANDS:,} commands at most",
            f"a day takes {rules.MOST_DAY_PARTICIPANTS} participants at most",
            f"a journal has {rules.MOST_BYTES:,} bytes at most",
            f"a journal has the day and {rules.MOST_RECORDS - 1:,} commands at most",
            f"its number of periods: {', '.join(days[:-1])} or {days[-1]}",
            f"the participant: 1 to {rules.LONGEST_PARTICIPANT} capitals",
            f"the order's name: 1 to {rules.LONGEST_NAME} capitals",
        ):
            with self.subTest(rule):
                self.assertIn(rule, advice)

    def test_explanations_stand_once(self):
        for said, homes in STATED_ONLY_IN.items():
            with self.subTest(said):
                self.assertEqual(sorted(page.name for page in PAGES for _ in re.findall(said, plain(page))), homes)

    def test_the_statuses_of_the_cases_are_those_of_the_faults(self):
        """Each fault line of a worked case has a row of the table, with the status of the case."""
        rows = re.findall(r"^\| (`[^|]*) \|[^|]*\|[^|]*\| (\d) \|$", FORMATS, re.MULTILINE)
        self.assertGreater(len(rows), 15)
        lines = [(line, int(number)) for cell, number in rows for line in re.findall(r"`([a-z]+(?:: [^`]*)?)`", cell)]
        patterns = {re.sub(r"<\\?\w+\\?>", r"\\d+", re.escape(line)): number for line, number in lines}
        counted = set()
        for case in worked.read_all_cases():
            line = case.stderr.texts[0].decode().rstrip("\n")
            if line and case.stderr.is_whole:
                fitting = {number for pattern, number in patterns.items() if re.fullmatch(pattern, line)}
                with self.subTest(case.name, line=line):
                    self.assertEqual(fitting, {case.status})
                counted.add(line)
        self.assertGreater(len(counted), 15)

    def test_the_shown_wrong_body(self):
        text = (TOP / "docs/CONTRIBUTING.md").read_text()
        name, path, edit = re.search(r"This is `(\w+)` of `(\S+)`:\n\n```text\n(.*?)```", text, re.DOTALL).groups()
        self.assertTrue(edit.startswith(f"name: {name}\n"))
        self.assertIn(edit, (TOP / path).read_text())

    def test_the_first_task(self):
        """The quoted contract, code, edit and line are those of the function."""
        task = (TOP / "docs/CONTRIBUTING.md").read_text().partition("## A first task")[2].partition("\n## ")[0]
        source = TOP / re.search(r"\(`(crates/\S+)`\)", task)[1]
        code, clause = re.search(r"`(usize::\S+)`. Its contract says so: `(ensures [^`]+)`", task).groups()
        before, found, _ = source.read_text().partition(code)
        self.assertTrue(found)
        above, _, contract = before.rpartition("\n    pub fn ")
        self.assertIn(clause, contract)
        self.assertEqual(len(above.splitlines()) + 1, int(re.search(rf"src/{source.name}:(\d+):5:", task)[1]))
        name, path = re.search(r"the edit `(\w+)` in `(\S+)`", task).groups()
        self.assertIn(f"name: {name}\nfile: src/{source.name}\nold: {code}\n", (TOP / path).read_text())

    def test_the_number_of_wrong_bodies(self):
        count = len(list((TOP / "crates").glob("*/must-fail/*.edit")))
        said = re.findall(r"(\d+) of `must-fail/`", "".join(map(plain, PAGES)))
        self.assertEqual(said, [str(count)])

    def test_the_number_of_wrong_bodies_that_tests_find(self):
        """It is said in a round number."""
        count = len(re.findall("^name: ", (TOP / "tests/rattle/wrong-bodies.edit").read_text(), re.MULTILINE))
        said = re.search(r"Some (\d+) bugs that contracts allow", plain(TOP / "docs/CHECK.md"))
        self.assertAlmostEqual(int(said[1]) / count, 1, delta=0.05)

    def test_the_parts_of_the_recorded_run(self):
        """CHECK.md names those that are newer."""
        check, runs = (TOP / "docs/CHECK.md").read_text(), (TOP / "tests/RUNS.md").read_text()
        parts = set(re.findall(r"^\| (\w+) \| `", check, re.MULTILINE))
        recorded = set(re.findall(r"^(\w+) +[\d.]+ +[\d.]+ +\d+ passed", runs, re.MULTILINE)) - {"all"}
        self.assertGreater(len(recorded), 9)
        later = re.search(r"The parts? ([^.]*) (?:is|are) newer\.", plain(TOP / "docs/CHECK.md"))
        self.assertEqual(parts - recorded, set(re.findall(r"`(\w+)`", later[1])) if later else set())

    def test_the_times_of_the_recorded_run(self):
        """CHECK.md and THEOREM.md round those of RUNS.md."""
        runs, check, proved = (plain(TOP / path) for path in ("tests/RUNS.md", "docs/CHECK.md", "docs/THEOREM.md"))
        day = re.search(r"The last recorded whole run of `\./check`: commit \w+ \((\S+)\)", runs)[1]
        wanted = re.search(r" all +([\d.]+) +([\d.]+) +\d+ passed", runs).groups()
        wanted += re.search(r"The proofs of the crates took ([\d.]+) CPU-minutes .*? the wrong bodies of `must-fail/` ([\d.]+) ", runs).groups()
        wanted = [f"{float(number):.0f}" for number in wanted]
        self.assertEqual(re.search(r"\(\.\./tests/RUNS\.md#the-whole-check\) took .*? on (\d{4}-\d\d-\d\d)", check)[1], day)
        said = re.search(r"took (\d+) minutes .*? and (\d+) CPU-minutes: (\d+) for the proofs of the crates, (\d+) for the wrong bodies", check)
        self.assertEqual(list(said.groups()), wanted)
        self.assertEqual(re.search(r"Proving the crates took \[(\d+) CPU-minutes\]", proved)[1], wanted[2])

    def test_the_clauses_that_pages_name_are_those_of_their_functions(self):
        """Or definitions in their contracts. `market` is a module. A fault or a definition before the brackets has no contract."""
        heads = {}
        for path in (TOP / "crates").glob("*/src/**/*.rt"):
            text = path.read_text()
            for name, head in HEAD.findall(text):
                heads.setdefault(name, set()).update(re.findall(r"\w+", head))
            if path.stem == "market":
                heads.setdefault("market", set()).update(re.findall(r"\w+", text))
        names = ("docs/ARCHITECTURE.md", "docs/ASSURANCE.md", "docs/TESTED.md", "docs/THEOREM.md", "docs/BOUND.md", "crates/TRACEABILITY.md")
        pages = {TOP / name: plain(TOP / name) for name in names}
        for path in (TOP / "crates").glob("*/README.md"):
            pages[path] = plain(path).partition("## Promises")[2].partition("## Only tested")[0]
        counted = 0
        for page, text in pages.items():
            for function, names in NAMED.findall(text):
                name = function.rpartition("::")[2]
                if name[0].islower():
                    counted += 1
                    with self.subTest(page=str(page.relative_to(TOP)), function=function, names=names):
                        self.assertEqual(set(re.findall(r"\w+", names)) - heads.get(name, set()), set())
        self.assertGreater(counted, 30)

    def test_the_laws_that_state_limits_as_numbers(self):
        laws = sorted((TOP / "crates").glob("*/src/laws.rt"))
        wanted = {path.parts[-3] for path in laws if re.search(r"^    ensures \w+_is \{", path.read_text(), re.MULTILINE)}
        said = re.search(r"the laws `limits` of ([^.]*?) state each limit", plain(CHECKLISTS))[1]
        self.assertGreater(len(wanted), 4)
        self.assertEqual(set(re.findall(r"`(\w+)`", said)), wanted)
        others = {path.parts[-3] for path in laws if "\npub fn limits()\n" in path.read_text()} - wanted
        self.assertEqual(re.findall(r"The law `limits` of `(\w+)` only equates", plain(CHECKLISTS)), sorted(others))

    def test_the_files_with_the_limit_on_nodes(self):
        """Where more blocks are allowed, each is named, with its ending or without; an edit by its own name, a page as pages are."""
        section = re.search(r"^## To allow more blocks\n(.*?)^## ", CHECKLISTS.read_text(), re.MULTILINE | re.DOTALL)[1]
        said = {word.rpartition("/")[2] for word in re.findall(r"[\w./-]*\w", section)}
        wanted = set()
        for path in (path for pattern in WITH_NUMBERS for path in TOP.glob(pattern) if path.is_file() and "out" not in path.parts):
            text = path.read_text(errors="replace")
            if path.suffix == ".edit":
                wanted |= {part.split()[0] for part in text.split("name: ") if OF_NODES.search(part)}
            elif OF_NODES.search(text) and path != CHECKLISTS:
                wanted.add(path.name)
        self.assertGreater(len(wanted), 15)
        self.assertEqual({name for name in wanted if not {name, name.split(".")[0]} & said}, set())

    def test_no_comment_states_the_limit_on_blocks(self):
        """Or on nodes, which follows from it: a comment names the constant."""
        for line in (f"/// Some of {rules.MOST_BLOCKS} blocks.", f"// a block of {rules.MOST_BLOCKS}", f"/// up to {by_library.MOST_NODES:,}"):
            self.assertRegex(line, OF_BLOCKS)
        sources = {path: path.read_text().splitlines() for path in (TOP / "crates").glob("*/src/**/*.rt")}
        self.assertGreater(len(sources), 100)
        self.assertEqual([(path.name, line) for path, lines in sources.items() for line in lines if OF_BLOCKS.match(line)], [])

    def test_no_crate_cites_the_proofs_of_another(self):
        files = [path for folder in ("src", "specs", "proofs") for path in (TOP / "crates").glob(f"*/{folder}/**/*.*t")]
        cited = [(path, crate) for path in files for crate in re.findall(r"\bRattle\.(\w+)\.proofs\.", path.read_text())]
        own = [(path, crate) for path, crate in cited if (TOP / "crates" / crate).is_dir()]
        self.assertGreater(len(own), 500)
        self.assertEqual([f"{path}: {crate}" for path, crate in own if crate != path.relative_to(TOP / "crates").parts[0]], [])

    def test_the_figures_of_the_notes_on_the_gate(self):
        """They are those of the bench."""
        texts = [(TOP / "bench" / "measured" / f"{part}.csv").read_text() for part in ("commands", "looks")]
        commands, looks = ({row["key"]: row for row in csv.DictReader(text.splitlines())} for text in texts)
        factor, memory = commands["day/processor"]["value"], commands["memory"]["details"]
        ours, plain_ones = re.match(r"([\d.]+ MiB) and ([\d.]+ MiB);", memory).groups()
        notes = plain(TOP / "crates/dam_gate/NOTES.md")
        wanted = f"takes {ours}, and {factor.split()[0]} times the CPU time of the plain program, which takes {plain_ones}"
        self.assertIn(wanted, notes)
        few, many = (looks[key]["value"] for key in ("call/100", "call/4000"))
        self.assertIn(f"A call takes {few} with 100 orders in the book, and {many} with 4,000;", notes)

    def test_the_number_of_walked_books(self):
        """Of each market, the tests draw as many books. A market may be in several tests."""
        text = (TOP / "tests" / "rattle" / "dam_search" / "src" / "counts.rt.test").read_text()
        (books,) = re.findall(r"^const BOOKS: u64 = (\d+);$", text, re.MULTILINE)
        markets = {*re.findall(r"nodes_of(?:_pieces)?\(rt\.alloc\(\), ([A-Z]+|larger)\b", text)}
        markets |= {*re.findall(r"\((Bonds::\w+), [\d_]+\)", text)}
        markets |= {*re.findall(r"\(((?:[A-Z]+|far|tied\(Bonds::\w+\)), \d+, \d+), [\d_]+\)", text)}
        said = re.findall(r"few nodes of (\d+) fixed books", plain(TOP / "docs" / "TESTED.md"))
        self.assertEqual(said, [str(int(books) * len(markets))])

    def test_the_lines_of_the_audit(self):
        """They are said in round numbers."""
        text, lib = plain(TOP / "docs" / "AUDIT.md"), TOP / "tools" / "lib"

        def lines(paths):
            return sum(len(path.read_text().splitlines()) for path in paths)

        files = {path.stem: path for path in lib.glob("*/*.py") if path.stem != "__init__"}
        found, left = set(), [TOP / "tools" / "audit"]
        while left:
            path = left.pop()
            if path not in found:
                found.add(path)
                left += [files[name] for name in imported(path) if name in files]
        modules = re.findall(r"`(\w+)`", re.search(r"in `tools/lib/` the modules (.*?)\.", text)[1])
        self.assertLessEqual({files[name] for name in modules}, found)
        for said, count in (r"some ([\d,]+) lines of Python", lines(found)), (r"some ([\d,]+) of these", lines(files[name] for name in modules)):
            with self.subTest(said):
                self.assertAlmostEqual(int(re.search(said, text)[1].replace(",", "")) / count, 1, delta=0.1)

    def test_the_sizes_of_tests_and_proofs(self):
        """They are said in round numbers. A function has a handwritten proof if a folder of `proofs/` has its invariants or answers."""
        text = plain(TOP / "docs" / "THEOREM.md")
        functions, proofs = (TOP.glob(f"crates/*/{part}") for part in ("src/**/*.rt", "proofs/**/*.antt"))
        proved = {path.parent for path in proofs if path.stem in ("Answers", "Invariants")}
        heads = sum(len(FUNCTION.findall(path.read_text())) for path in functions)
        tests = sum(len(path.read_text().splitlines()) for path in (TOP / "tests" / "rattle").rglob("*.rt.test"))
        said = re.search(r"have another ([\d,]+) lines.* Some (\d+) of ([\d,]+) functions have handwritten proofs", text)
        for number, count in zip(map(whole_number, said.groups()), (tests, len(proved), heads)):
            with self.subTest(number):
                self.assertAlmostEqual(number / count, 1, delta=0.1)

    def test_the_books_that_every_selection_is_tried_of(self):
        bench = TOP / "bench"
        with mock.patch.object(sys, "path", [str(bench), *sys.path]):
            drawn = runpy.run_path(str(bench / "make_blocks.py"))
        said = re.search(r"for (\d+) deep books of 24 blocks; with `--thin` instead, (\d+) thin ones", plain(TOP / "docs" / "CHECK.md"))
        self.assertEqual([whole_number(number) for number in said.groups()], [len(drawn["DEEP"]), len(drawn["THIN"])])

    def test_the_crates_of_the_kit(self):
        """The page names each crate outside this repository that one of crates.txt uses, and the kit's `std`."""
        listed = dict(line.split("#")[0].split(":") for line in (TOP / "crates.txt").read_text().splitlines() if ":" in line.split("#")[0])
        own = {name.split()[0] for name in listed}
        used = {name for names in listed.values() for name in names.split()} - own
        said = re.search(r"These crates of the kit, and all that they use in turn: (.*?) The protection", plain(TOP / "docs" / "ASSURANCE.md"))
        self.assertEqual(sorted(re.findall(r"`(\w+)`", said[1])), sorted(used | {"std"}))

    def test_the_numbers_of_definitions(self):
        """They are said in round numbers."""
        repository, text = Repository.read(TOP), plain(TOP / "docs" / "ASSURANCE.md")
        nodes = {node for _, _, new in reading_lists.read_function_lists(repository) for node in new}
        sizes = dict(theorem.read_reached_sizes(repository))["`run_clear`"]
        counts = {
            r"some (\d+) definitions and types": [len(nodes)],
            r"some (\d+) lines": [len(reading_lists.read_few_text(repository).splitlines())],
            r"contract reaches \(some \[(\d+), in ([\d,]+) lines\]": sizes,
        }
        for said, wanted in counts.items():
            for number, count in zip(map(whole_number, re.search(said, text).groups()), wanted):
                with self.subTest(said):
                    self.assertAlmostEqual(number / count, 1, delta=0.1)

    def test_the_crates_that_are_proved_for_the_programs(self):
        """Their number, and the length of the longest chain in which each uses the next."""
        used = crates.without_foreign(crates.read_crates(TOP))

        def longest(name):
            return 1 + max(map(longest, used[name]), default=0)

        programs = ("dam_cli", "dam_desk")
        needed = {name for program in programs for name in (program, *crates.crates_below(used, program))}
        self.assertLessEqual(needed, set(seconds_of_proofs()), "tools/prove has no time of it")
        text = plain(TOP / "docs" / "CHECK.md")
        self.assertEqual(int(re.search(r"`\./dam prove` proves (\d+) of the crates", text)[1]), len(needed))
        self.assertEqual(re.search(r"a chain of (\w+) crates", text)[1], NUMERALS[max(map(longest, programs)) - 1])


def seconds_of_proofs():
    """The seconds that tools/prove expects for each crate."""
    return plan.SECONDS


if __name__ == "__main__":
    unittest.main()
