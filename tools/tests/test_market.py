"""The page of the market's laws: each law with its clauses stands in the code, the cases are there, and the examples come out as it says."""

import re
import unittest

from support import TOP, journal, read_worked_cases
from lib.audit import recursive_enumeration
from lib.base import rules
from lib.journal import book
from lib.results import results, selection

PAGE = TOP / "docs" / "MARKET.md"
MOST_PAGE_BYTES = 8_192  # bytes
FUNCTION = re.compile(r"^pub fn (\w+)\(\)\n(.*?)^\{", re.M | re.S)
MIDDLE = (rules.LOWEST_PRICE + rules.HIGHEST_PRICE) // 2  # the price of a period without orders
CITED = re.compile(r"`((?:\w+::)*)(\w+)`(?: \(([^)]*)\))?")

CASES = [  # the output before and after each change
    ("another-buyer", ["welfare,20000"], ["welfare,0", "hour,MILL,SAW,0", "block,GEN,UNIT,rejected,20000"]),
    ("better-hourly-limit", ["period,1,8000,30", "hour,CITY,TOWN,10"], ["period,1,10000,0", "hour,CITY,TOWN,0", "block,STEEL,OVEN,rejected,-20000"]),
    (
        "better-parent-limit",
        ["welfare,68000", "block,GEN,UNIT,accepted,-2000", "block,GEN,NEXT,accepted,20000", "block,GAS,START,rejected,30000"],
        ["welfare,80000", "block,GEN,UNIT,accepted,0", "block,GEN,NEXT,rejected,20000", "block,GAS,START,accepted,30000"],
    ),
    (
        "cancelled-unexecuted",
        ["period,1,5000,10", "hour,WIND,PARK,0"],
        [f"period,1,{MIDDLE},0", f"block,STEEL,OVEN,rejected,{10 * (8_000 - MIDDLE)}"],
    ),
    ("better-block-limit", ["block,GEN,UNIT,accepted,30000"], ["block,GEN,UNIT,rejected,30000", "block,GAS,START,accepted,35000"]),
    (
        "better-accepted-limit",
        ["period,1,6750,20", "block,GEN,UNIT,accepted,55000"],
        ["period,1,3500,30", "block,GEN,UNIT,accepted,0", "block,GAS,START,accepted,25000"],
    ),
    (
        "exchanged-blocks",
        ["welfare,30000", "period,1,2000,20", "block,GEN,UNIT,accepted,10000"],
        ["welfare,30000", "period,1,3000,10", "block,GAS,START,accepted,20000"],
    ),
    ("own-limit", ["period,1,5000,20", "hour,CITY,TOWN,20"], ["period,1,4500,20", "hour,CITY,TOWN,20"]),
]


def missing(wanted, lines):
    """The wanted lines that aren't there, alone or as the first fields of a line."""
    return [line for line in wanted if not any(f"{other},".startswith(f"{line},") for other in lines)]


def functions():
    """The clauses of each law, by crate and name."""
    found = {}
    for path in sorted((TOP / "crates").glob("*/src/market.rt")):
        for name, contract in FUNCTION.findall(path.read_text()):
            found[path.parts[-3], name] = re.findall(r"^ +ensures (\w*) ?\{", contract, re.M)
    return found


def cited():
    """The functions that the page names, with the clauses in brackets after them; `crate::market` alone is that of the same name there."""
    laws, last = functions(), None
    for path, name, brackets in CITED.findall(PAGE.read_text().replace("\n", " ")):
        crate = path.split("::")[0] or "dam_blocks"
        if name == "market":
            name = last
        elif (crate, name) in laws:
            last = name
        yield crate, name, re.findall(r"`(\w+)`", brackets)


def cleared(*submits):
    lines = ["day,24,,,,,,,", *(f"submit,{submit}" for submit in submits), "close,,,,,,,,"]
    closed, _ = book.book_and_refusals(journal.parse_journal("".join(f"{line}\n" for line in lines).encode()))
    problem = selection.Problem(closed)
    found, _ = recursive_enumeration.search_recursively(problem)
    return results.results_text(problem, found.accepted, selection.outcome(problem, found.accepted)).splitlines()


class Market(unittest.TestCase):
    def test_the_page_is_short(self):
        self.assertLessEqual(len(PAGE.read_bytes()), MOST_PAGE_BYTES)

    def test_each_law_and_clause_is_on_the_page(self):
        laws, on_page = functions(), {}
        for crate, name, clauses in cited():
            if (crate, name) in laws:
                on_page.setdefault((crate, name), set()).update(clauses)
                self.assertLessEqual(set(clauses), set(laws[crate, name]), name)
        self.assertGreater(len(laws), 10)
        for law, clauses in laws.items():
            with self.subTest(law):
                self.assertIn(law, on_page)
                self.assertEqual(on_page[law], {clause for clause in clauses if clause})

    def test_each_case_runs(self):
        table = PAGE.read_text().split("## Not promised")[1]
        self.assertIn("| In `tests/cases/market.txt` |", table)
        named = [(file or "market", name) for name, file in re.findall(r"\| `([\w-]+)`(?: of `(\w+)\.txt`)? \|$", table, re.MULTILINE)]
        self.assertIn(("clear", "paradox"), named)
        pairs = {name.rpartition("-")[0] for name in read_worked_cases("market")}
        self.assertEqual(pairs, {name for file, name in named if file == "market"})
        for file, name in named:
            for case in [f"{name}-before", f"{name}-after"] if file == "market" else [name]:
                self.assertIn(case, read_worked_cases(file))

    def test_the_cases_come_out(self):
        """The table's entry for each pair; `./check` compares the program with these cases."""
        for name, before, after in CASES:
            for when, lines in ("before", before), ("after", after):
                with self.subTest(name, when=when):
                    case = read_worked_cases("market")[f"{name}-{when}"]
                    self.assertEqual(missing(lines, case.right_stdout.decode().splitlines()), [])
        self.assertEqual({name for name, _, _ in CASES}, {name.rpartition("-")[0] for name in read_worked_cases("market")})

    def test_the_examples_come_out(self):
        town = "CITY,TOWN,hour,buy,5000,1:20,,"
        self.assertIn("block,GEN,UNIT,accepted,20000", cleared("GEN,UNIT,block,sell,4000,1:20,,", town))
        self.assertIn("block,GEN,UNIT,accepted,0", cleared("GEN,UNIT,block,sell,5000,1:20,,", town))
        self.assertIn("block,GEN,UNIT,rejected,-20", cleared("GEN,UNIT,block,sell,5001,1:20,,", town))
        one, two, buyer = "GEN,ONE,hour,sell,4000,1:100,,", "COAL,TWO,hour,sell,4000,1:50,,", "CITY,TOWN,hour,buy,6000,1:120,,"
        for orders, executed in ([one, two, buyer], (100, 20)), ([two, one, buyer], (70, 50)):
            lines = cleared(*orders)
            wanted = ["welfare,240000", "period,1,4000,120", f"hour,GEN,ONE,{executed[0]}", f"hour,COAL,TWO,{executed[1]}"]
            self.assertEqual(missing(wanted, lines), [])
        unit, city = "GEN,UNIT,block,sell,1000,1:10,,", "CITY,TOWN,hour,buy,4000,1:10,,"
        for limit, welfare, word in (3000, 30_000, "rejected"), (rules.HIGHEST_PRICE, 30_000, "rejected"), (500, 35_000, "accepted"):
            lines = cleared(unit, f"GAS,START,block,sell,{limit},1:10,,", city)
            self.assertIn(f"welfare,{welfare}", lines)
            self.assertTrue(any(line.startswith(f"block,GAS,START,{word},") for line in lines))
        self.assertIn("welfare,30000", cleared(unit, city))


if __name__ == "__main__":
    unittest.main()
