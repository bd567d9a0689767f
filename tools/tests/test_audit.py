"""The audit: that it accepts right results and refuses others, by other readings of the rules than its own."""

import itertools
import os
import random
import re
import shutil
import subprocess
import sys
import tempfile
import unittest
import unittest.mock
from fractions import Fraction

import support
from support import AUCTION, AUCTION_RESULTS, FIRST, QUARTERS, journal_of, problem_of, ranked_selections, read_cleared_cases, read_results, results_of
from support import draw_small_problems, run_audit, run_tool

from shared import days
from lib.audit import day_audit, recursive_enumeration
from lib.base import rules
from lib.base.text import exact_eur
from lib.journal import book, journal
from lib.process.progress import Progress
from lib.results import check, period, results, selection
from lib.tables import day_tables, table_files
from lib.tool import exits, modules

NOT_COMPARED = f"{day_audit.NOT_COMPARED}\n"
NUMBER = re.compile(rb"(?<=,)-?\d+(?=[,\n])")


def differences(data, text):
    return check.results_and_faults(problem_of(data), text)[1]


def changed_numbers(text):
    """The text with one of its numbers one greater or one less, for each number; and the line of that number."""
    for found in NUMBER.finditer(text):
        for step in (-1, 1):
            number = str(int(found[0]) + step).encode()
            yield text[: found.start()] + number + text[found.end() :], text[: found.start()].count(b"\n") + 1


class Results(unittest.TestCase):
    def test_worked_results_are_accepted(self):
        for name, data, text in read_cleared_cases():
            with self.subTest(name):
                self.assertEqual(differences(data, text), [])

    def test_each_changed_number_is_refused_at_its_line(self):
        """The other checks find each changed number without the sums."""
        refused = 0
        for name, data, text in read_cleared_cases():
            day = problem_of(data)
            for other, line in changed_numbers(text):
                with self.subTest(name, line=line), unittest.mock.patch.object(check.sums, "sum_faults", return_value=()):
                    self.assertRegex("\n".join(check.results_and_faults(day, other)[1]), rf"results line {line}\b")
                refused += 1
        self.assertGreater(refused, 1_000)

    def test_numbers_that_change_places_late_in_a_full_book_are_refused(self):
        """Those of two neighbours, so that no sum changes: the surpluses of 24 blocks, and the volumes of 600 orders of one period."""
        orders = [f"submit,A,H{number},hour,{'sell' if number % 2 else 'buy'},{6_000 + 7 * number},18:{number + 1},," for number in range(600)]
        blocks = [f"submit,B,K{number},block,sell,{9_000 + number},18:{10 + number},," for number in range(rules.MOST_BLOCKS)]
        data = journal_of(*orders, *blocks)
        day, right = problem_of(data), results_of(data, frozenset()).decode().splitlines()
        for start, least in (("block,", rules.MOST_BLOCKS), ("hour,", 600)):
            rows = [place for place, line in enumerate(right) if line.startswith(start)]
            self.assertEqual(len(rows), least)
            swapped = 0
            for one, other in zip(rows, rows[1:]):
                (front, _, first), (back, _, last) = right[one].rpartition(","), right[other].rpartition(",")
                if first != last:
                    wrong = [*right[:one], f"{front},{last}", f"{back},{first}", *right[other + 1 :]]
                    found = check.results_and_faults(day, "".join(f"{line}\n" for line in wrong).encode())[1]
                    self.assertLessEqual({one + 1, other + 1}, {fault.line for fault in found}, right[one])
                    swapped += 1
            self.assertGreater(swapped, 20)

    def test_each_turned_block_is_refused(self):
        data, text = AUCTION.read_bytes(), read_results(AUCTION)
        turned = 0
        for word, other in ((b"accepted", b"rejected"), (b"rejected", b"accepted")):
            for found in re.finditer(word, text):
                changed = text[: found.start()] + other + text[found.end() :]
                self.assertNotEqual(differences(data, changed), [])
                turned += 1
        self.assertEqual(turned, 9)

    def test_form(self):
        data, text = AUCTION.read_bytes(), read_results(AUCTION)
        lines = text.splitlines(keepends=True)
        broken = {
            "no line end at the end": text[:-1],
            "another line end": text.replace(b"\n", b"\r\n"),
            "a line less": b"".join(lines[:-1]),
            "a line more": text + lines[-1],
            "an empty line more": text + b"\n",
            "a line doubled": b"".join(lines[:4] + lines[3:]),
            "lines in another order": b"".join(lines[:30] + [lines[31], lines[30]] + lines[32:]),
            "another day": text.replace(b"day,24", b"day,23"),
            "a zero in front": text.replace(b"period,1,9200", b"period,1,09200"),
            "a plus in front": text.replace(b"period,1,9200", b"period,1,+9200"),
            "a minus zero": text.replace(b"FLEX-2,0", b"FLEX-2,-0"),
            "a space": text.replace(b"welfare,", b"welfare, "),
            "quotes": text.replace(b"day,24", b'"day",24'),
            "another name": text.replace(b"LOAD-7,", b"LOAD-77,"),
            "another participant": text.replace(b"COAL,BASE", b"OIL,BASE"),
            "another word": text.replace(b"DAWN,accepted", b"DAWN,taken"),
            "nothing": b"",
        }
        for name, other in broken.items():
            with self.subTest(name):
                self.assertNotEqual(other, text)
                self.assertNotEqual(differences(data, other), [])

    def test_links_groups_and_losses_are_named(self):
        wrong = "\n".join(differences(AUCTION.read_bytes(), read_results(AUCTION).replace(b"STAY,accepted", b"STAY,rejected")))
        self.assertIn("results line 111: block GAS,EVENING is accepted and its parent GAS,STAY isn't", wrong)
        wrong = "\n".join(differences(AUCTION.read_bytes(), read_results(AUCTION).replace(b"NOON,rejected", b"NOON,accepted")))
        self.assertRegex(wrong, r"results line \d+: group FILL of PUMP has 2 accepted blocks: PUMP,DAWN PUMP,NOON")
        wrong = "\n".join(differences(AUCTION.read_bytes(), read_results(AUCTION).replace(b"UNIT-7,rejected", b"UNIT-7,accepted")))
        self.assertIn("block OLD,UNIT-7: it is accepted and loses 270000", wrong)
        wrong = "\n".join(differences(AUCTION.read_bytes(), read_results(AUCTION).replace(b"EVENING,accepted", b"EVENING,rejected")))
        self.assertIn("block GAS,START: it is accepted and loses 320000 together with its accepted descendants", wrong)

    def test_a_family_makes_its_root_good_and_no_child(self):
        chain = support.problem_of(support.read_worked_cases("clear")["chain"].stdin)
        self.assertEqual(chain.rescuers, [[1, 2], [2], []])
        for accepted, losers in ({0}, {0: 500}), ({0, 1}, {0: 2_500, 1: 2_000}), ({0, 1, 2}, {}):
            found = selection.outcome(chain, accepted)
            self.assertEqual(selection.losses_of(chain, accepted, found.surpluses), losers)
        case = support.read_worked_cases("clear")["rescue-not-upwards"]
        wrong = "\n".join(differences(case.stdin, case.right_stdout.replace(b"K2,rejected", b"K2,accepted")))
        self.assertIn("block A,K2: it is accepted and loses 500", wrong)
        self.assertNotIn("with those", wrong)

    def test_a_wrong_block_is_said_before_the_prices_that_it_changes(self):
        hourly = [
            f"submit,A,{name}-{number},hour,{side},{price},{number}:100,,"
            for number in range(1, 25)
            for name, side, price in (("B", "buy", 5_000), ("S", "sell", 1_000))
        ]
        volumes = ";".join(f"{number}:100" for number in range(1, 25))
        data = journal_of(*hourly, f"submit,A,K,block,sell,4000,{volumes},,")
        status, out, _ = run_audit(data, results_of(data, frozenset()).replace(b"rejected", b"accepted"))
        lines = out.decode().splitlines()
        self.assertEqual((status, len(lines)), (exits.DIFFERS, 21))
        self.assertRegex(lines[0], r"^results line 75: block A,K: it is accepted and loses \d+$")
        self.assertRegex(lines[1], r"^results line 2: the welfare is ")
        self.assertRegex(lines[2], r"^results line 3: period 1: the price is ")
        self.assertRegex(lines[-1], r"^and \d+ more: --all prints every line$")

    def test_faults_come_in_their_order(self):
        """Links and groups, losses, the welfare, periods, hourly orders, surpluses, sums."""
        data, text = AUCTION.read_bytes(), read_results(AUCTION)
        text = text.replace(b"STAY,accepted", b"STAY,rejected").replace(b"UNIT-7,rejected", b"UNIT-7,accepted")
        kinds = [
            r"^results line 111: block GAS,EVENING is accepted and its parent",
            r"it is accepted and loses",
            r"the welfare is",
            r"(the price is|the volume is)",
            r"is executed, and the rule gives",
            r"the surplus is",
            r"(the orders buy|with its executed volume$|with all its orders|the surpluses add up)",
        ]
        last_first = list(enumerate(kinds))[::-1]
        found = [next(at for at, kind in last_first if re.search(kind, line)) for line in differences(data, text)]
        self.assertEqual(found, sorted(found))
        self.assertEqual(set(found), set(range(len(kinds))))

    def test_a_selection_that_balances_nowhere_is_refused(self):
        case = support.read_worked_cases("clear")["too-large-block"]
        wrong = differences(case.stdin, case.right_stdout.replace(b"rejected", b"accepted"))
        self.assertIn("period 1: no execution balances", wrong[0])


class Text(unittest.TestCase):
    def test_replies_and_faults_of_the_worked_cases(self):
        for name, case in support.read_worked_cases("replay").items():
            with self.subTest(name):
                self.assertEqual(self.replies(case.stdin), (case.right_stdout, case.stderr.texts[0]))

    def replies(self, data):
        try:
            return book.replies_text(journal.parse_journal(data)).encode(), b""
        except journal.JournalFault as fault:
            return b"", f"{fault}\n".encode()

    def test_records(self):
        from lib.base.text import records

        for given, wanted in {
            b"": [],
            b"\n\r\n\r": [],
            b"a": [[b"a"]],
            b"a,": [[b"a", b""]],
            b",\n": [[b"", b""]],
            b"\n\na,b\r\rc": [[b"a", b"b"], [b"c"]],
            b'""': [[b""]],
            b'"a,\n""b"",c': [[b'a,\n"b",c']],
            b'"a"b"c,d\n': [[b'ab"c', b"d"]],
            b'a"b"\n': [[b'a"b"']],
            b'"a"""\n': [[b'a"']],
            b" a , b ": [[b" a ", b" b "]],
            b"\0,\xff\x85\x0b\xe2\n": [[b"\0", b"\xff\x85\x0b\xe2"]],
            b'a,"b\r\r\nc': [[b"a", b"b\r\r\nc"]],
            b'"' + b"a" * 200_000: [[b"a" * 200_000]],
        }.items():
            with self.subTest(given[:20]):
                self.assertEqual(list(records(given)), wanted)

    def test_where_records_and_open_quotes_begin(self):
        from lib.base.text import place_of_open_quote, placed_records

        text = b'\r\na,b\r\n\n"c""\n";d\re,"f'
        self.assertEqual(list(placed_records(text)), [(2, [b"a", b"b"]), (8, [b'c"\n;d']), (17, [b"e", b"f"])])
        self.assertEqual(list(placed_records(text, b";"))[1], (8, [b'c"\n', b"d"]))
        for given, place in {b"": None, b'a"\n': None, b'"a"\n"b"': None, text: 8, text[9:]: 4, b'a,"b""c': 2, b'""""": 1"\n"': 10}.items():
            with self.subTest(given):
                self.assertEqual(place_of_open_quote(given), place)
        self.assertEqual(place_of_open_quote(b'"a";"b', b";"), 4)
        self.assertEqual(place_of_open_quote(b'a,"' + b"x" * 200_000), 2)

    def test_the_written_journal_reads_back(self):
        for number in range(300):
            text = days.draw_text(random.Random(number), 8)
            read = journal.parse_journal(text)
            self.assertEqual(journal.journal_text(read).encode(), text)
            self.assertEqual(journal.parse_journal(text.replace(b"\n", b"\r\n\r\n")), read)


def executions(orders):
    """Each list of executed volumes."""
    return itertools.product(*(range(quantity + 1) for _, _, quantity in orders))


def balance(orders, net, executed):
    return net + sum(-quantity if side == "buy" else quantity for (side, _, _), quantity in zip(orders, executed)) == 0


def obeys(orders, executed, price):
    """Whether better orders are executed in full, and worse ones not at all."""
    for (side, limit, quantity), done in zip(orders, executed):
        gain = limit - price if side == "buy" else price - limit
        if gain > 0 and done != quantity or gain < 0 and done != 0:
            return False
    return True


def bought(orders, executed):
    return sum(quantity for (side, _, _), quantity in zip(orders, executed) if side == "buy")


class Period(unittest.TestCase):
    """The clearing of a period, against all executions of tiny ones."""

    def drawn(self):
        for number in range(400):
            rng = random.Random(number)
            middle = rng.choice([rules.LOWEST_PRICE + 2, 0, 5_000, rules.HIGHEST_PRICE - 2])
            orders = tuple(
                (rng.choice(["buy", "sell"]), middle + rng.randint(-2, 2), rng.randint(1, 3))
                for _ in range(rng.randint(0, 5))
            )
            yield orders, rng.randint(-4, 4)

    def test_supporting_prices(self):
        for orders, net in self.drawn():
            balanced = [executed for executed in executions(orders) if balance(orders, net, executed)]
            limits = {limit + step for _, limit, _ in orders for step in (-1, 0, 1)}
            near = sorted(price for price in limits if rules.LOWEST_PRICE <= price <= rules.HIGHEST_PRICE)
            prices = sorted({rules.LOWEST_PRICE, *near, rules.HIGHEST_PRICE})
            right = [price for price in prices if any(obeys(orders, executed, price) for executed in balanced)]
            found = period.clear(orders, net)
            self.assertEqual(found is not None, bool(balanced))
            if found:
                self.assertEqual(right, [price for price in prices if found.low <= price <= found.high])
                self.assertEqual((found.low, found.high), (right[0], right[-1]))

    def test_execution(self):
        for orders, net in self.drawn():
            balanced = [executed for executed in executions(orders) if balance(orders, net, executed)]
            found = period.clear(orders, net)
            if found:

                def rank(executed):
                    return period.welfare(orders, executed), bought(orders, executed), executed

                self.assertEqual(found.executed, max(balanced, key=rank))
                self.assertEqual(found.welfare, period.welfare(orders, found.executed))

    def test_price_rule(self):
        least, greatest = rules.LOWEST_PRICE, rules.HIGHEST_PRICE
        self.assertEqual(rules.price_and_case(least, 5_000)[0], 5_000)
        self.assertEqual(rules.price_and_case(6_000, greatest)[0], 6_000)
        self.assertEqual(rules.price_and_case(least, greatest)[0], (least + greatest) // 2)
        self.assertEqual(rules.price_and_case(-3, 0)[0], -2)
        self.assertEqual(rules.price_and_case(200, 9_200)[0], 4_700)

    def test_the_curve_says_the_same(self):
        for orders, _ in self.drawn():
            curve = recursive_enumeration.Curve(orders)
            for net in range(-16, 17):
                found = period.clear(orders, net)
                self.assertEqual(curve.welfare_at(net), found and found.welfare)
                if found:
                    self.assertEqual(curve.supporting_prices(net), (found.low, found.high))


class Best(unittest.TestCase):
    def test_enumeration(self):
        for day, selections in draw_small_problems(200):
            found, _ = recursive_enumeration.search_recursively(day)
            self.assertEqual((found.welfare, found.accepted), selections[0])

    def test_highs(self):
        if not modules.has_module("scipy"):
            self.skipTest("scipy is missing (Debian's python3-scipy)")
        from lib.audit import highs_search

        tried = 0
        for day, selections in [*draw_small_problems(80), *self.equal_prices(), *self.equal_blocks()]:
            for rank, (welfare, accepted) in enumerate(selections[:4]):
                found, _ = highs_search.search_with_highs(day, accepted, welfare, Progress("audit", 60))
                self.assertEqual(found is None, rank == 0)
                if found:
                    self.assertIn((found.welfare, found.accepted), selections[:rank])
                tried += 1
        self.assertGreater(tried, 100)

    def equal_prices(self):
        """A book whose prices are all equal, of which HiGHS may hold a feasible one for infeasible."""
        data = journal_of(
            "submit,A,K1,block,buy,81610,1:10;23:10,,",
            "submit,A,S1,hour,sell,81610,23:10,,",
            "submit,A,S2,hour,sell,81610,1:10,,",
            "submit,A,S3,hour,sell,81610,1:10,,",
            "submit,A,K2,block,sell,81610,1:10,,",
        )
        day = problem_of(data)
        yield day, ranked_selections(day)

    def equal_blocks(self):
        """Books in which the later one of two equal blocks is accepted alone: the earlier one has a group or a parent, or the later one has
        a child."""
        for blocks in (
            ("X,block,sell,1000,2:20,,G", "K1,block,sell,4000,1:10,,G", "K2,block,sell,4000,1:10,,"),
            ("X,block,sell,9000,2:20,,", "K1,block,sell,4000,1:10,X,", "K2,block,sell,4000,1:10,,"),
            ("K1,block,sell,4000,1:10,,", "K2,block,sell,4000,1:10,,", "X,block,sell,1000,2:20,K2,"),
        ):
            orders = ("B1,hour,buy,6000,1:10,,", "B2,hour,buy,6000,2:20,,", *blocks)
            day = problem_of(journal_of(*(f"submit,A,{order}" for order in orders)))
            selections = ranked_selections(day)
            accepted = {day.blocks[place].name for place in selections[0][1]}
            self.assertEqual(("K1" in accepted, "K2" in accepted), (False, True), blocks)
            yield day, selections

    def methods(self):
        return ["enumeration", "highs"] if modules.has_module("scipy") else ["enumeration"]

    def test_worse_selections_are_refused_on_request_alone(self):
        data = AUCTION.read_bytes()
        without = results_of(data, frozenset({0, 1}))
        # The unit that is paradoxically rejected would make the welfare greater, and lose.
        for method in self.methods():
            with self.subTest(method):
                self.assertEqual(run_audit(data, without)[0], 0)
                status, out, _ = run_audit(data, without, "--best", "--by", method)
                self.assertEqual(status, 1)
                self.assertIn(b"a better selection accepts", out)
                self.assertEqual(run_audit(data, read_results(AUCTION), "--best", "--by", method)[0], 0)

    def test_of_equal_selections_the_earlier_block_is_accepted(self):
        data = support.read_worked_cases("clear")["two-equal-blocks"].stdin
        for method in self.methods():
            with self.subTest(method):
                status, out, _ = run_audit(data, results_of(data, frozenset({1})), "--best", "--by", method)
                self.assertEqual((status, b"an equally good selection takes precedence: it accepts A,K1, which is earlier" in out), (1, True))


class CommandLine(unittest.TestCase):
    def test_statuses(self):
        self.assertEqual(run_audit(AUCTION.read_bytes(), read_results(AUCTION))[0], exits.DONE)
        self.assertEqual(run_audit(AUCTION.read_bytes(), b"day,24\n")[0], exits.DIFFERS)
        self.assertEqual(run_tool("audit")[0], exits.COMMAND_LINE)
        status, _, err = run_audit(b"day,24\n", b"")
        self.assertEqual((status, "input: FieldCount in record 1" in err), (exits.NO_INPUT, True))
        status, _, err = run_tool("audit", "/nowhere/journal", "/nowhere/results")
        self.assertEqual(
            (status, err), (exits.NO_INPUT, "audit: /nowhere/journal can't be read: No such file or directory\n")
        )
        self.assertEqual(run_audit(b"day,24,,,,,,,\n", b"day,24\n")[0], exits.DIFFERS)

    def test_replies(self):
        data, text = journal_of("cancel,A,B,,,,,,"), b"day,24\n1,refused,UnknownOrder\n2,done\n"
        self.assertEqual(run_audit(data, text, "--replies")[0], exits.DONE)
        for other, said in (
            (text + b"3,done\n", "replies line 4: '3,done' is not a line of these replies"),
            (b"1,done\n" + text, "replies line 1: '1,done' is not a line of these replies"),
            (text.replace(b"1,refused,UnknownOrder\n", b""), "replies line 2: '1,refused,UnknownOrder' is missing"),
            (
                text.replace(b"refused,UnknownOrder", b"done"),
                "replies line 2: it is '1,done' and should be '1,refused,UnknownOrder'",
            ),
        ):
            self.assertEqual(run_audit(data, other, "--replies"), (exits.DIFFERS, f"{said}\n".encode(), ""))
        self.assertEqual(run_audit(data, b"", "--replies")[0], exits.DIFFERS)
        said = b"the encoding differs: the last line has no line end\nas the rules say: 2 replies, 1 of 2 commands refused\n"
        self.assertEqual(run_audit(data, text[:-1], "--replies"), (exits.ENCODING, said, ""))

    def test_the_text_of_a_day(self):
        day = AUCTION.read_bytes() + b"results\n" + read_results(AUCTION)
        self.assertEqual(run_tool("audit", "-", data=day)[0], exits.DONE)
        self.assertEqual(run_tool("audit", "-", data=day.replace(b"welfare,3", b"welfare,4"))[0], exits.DIFFERS)
        self.assertEqual(run_tool("audit", "-", data=day.replace(b"day,24,", b'"day",24,'))[0], exits.ENCODING)
        self.assertEqual(run_tool("audit", "-", data=AUCTION.read_bytes())[0], exits.NO_INPUT)
        for other in (b"\xef\xbb\xbf" + day, day.replace(b"\n", b"\r"), day.replace(b"\nresults\n", b'\n"results"\n')):
            self.assertEqual(run_tool("audit", "-", data=other)[:2], (exits.NO_INPUT, b""))

    def test_the_most_blocks(self):
        blocks = [f"submit,A,K{number},block,sell,1,1:1,," for number in range(rules.MOST_BLOCKS)]
        data = journal_of(*blocks)
        text = results_of(data, frozenset())
        wanted = exits.DONE if modules.has_module("numpy") or modules.run_and_see_if_debian_has("numpy") else exits.FAILED
        self.assertEqual(run_audit(data, text, "--best")[0], wanted)

    def test_a_tool_without_its_parts_has_no_verdict(self):
        """If Python leaves the tool's folder out, the tool finds it; a copy without it says so, and never that the results are wrong."""
        words = [AUCTION, AUCTION_RESULTS, "--quiet"]
        self.assertEqual(run_tool("audit", *words, python=(sys.executable, "-I")), (exits.DONE, b"", ""))
        with tempfile.TemporaryDirectory() as folder:
            copy = shutil.copy(support.TOOLS / "audit", folder)
            ran = subprocess.run([sys.executable, copy, *words], capture_output=True)
            said = f"audit: it can't start: [Errno 2] No such file or directory: '{os.path.realpath(folder)}/lib/start.py'\n"
            self.assertEqual((ran.returncode, ran.stdout, ran.stderr.decode()), (exits.FAILED, b"", said))

    def test_what_was_not_checked_is_said(self):
        """Without --best, the status of the selection; for a wrong form, the status of the numbers."""
        data, text = AUCTION.read_bytes(), read_results(AUCTION)
        said = "welfare 3,021,520.00 EUR, 1 of 94 commands refused" + day_audit.NOT_CHECKED
        self.assertTrue(run_audit(data, text)[1].decode().splitlines()[0].endswith(said))
        self.assertNotIn(b"not checked", run_audit(data, text, "--best")[1])
        self.assertNotIn(b"not checked", run_audit(journal_of(), results_of(journal_of(), frozenset()))[1])
        status, out, _ = run_audit(data, text.replace(b"period,20,", b"period,20,+"), "--best")
        number = text.split(b"period,20,")[1].split(b",")[0].decode()
        form = f"results line 22: period 20: '+{number}' isn't a number as dam writes it: no +, no leading zeros, no -0"
        self.assertEqual((status, out.decode().splitlines()), (exits.DIFFERS, [form, day_audit.NEITHER]))

    def test_files_that_are_no_text_have_no_verdict(self):
        for data, said in (
            (b"%PDF-1.7\n", "is a PDF instead of results"),
            (b"\x1f\x8b\x08\r\n", "is a compressed file (.gz) instead of results; gunzip FILE unpacks it"),
            (b"\n<!DOCTYPE html>\n", "is a web page (HTML) instead of results"),
        ):
            status, out, err = run_audit(AUCTION.read_bytes(), data)
            self.assertEqual((status, out, err.endswith(f"{said}\n")), (exits.NO_INPUT, b"", True))

    def test_what_a_spreadsheet_changes_besides_the_encoding_is_wrong(self):
        """Padding to a rectangle, and other separators: docs/FORMATS.md says so."""
        data, text = AUCTION.read_bytes(), read_results(AUCTION)
        tabs = text.replace(b",", b"\t").decode().encode("utf-16")
        for other in (text.replace(b"day,24\n", b"day,24,,,\n"), text.replace(b",", b";"), tabs, text.replace(b"\n", b"\r\r\n")):
            self.assertEqual(run_audit(data, other)[0], exits.DIFFERS)

    def test_other_encodings_are_named_right(self):
        """UTF-32 isn't UTF-16, and a tab somewhere isn't a separator."""
        for data in (read_results(AUCTION).decode().encode("utf-32"), b"\x07\tday,24\n"):
            status, out, _ = run_audit(AUCTION.read_bytes(), data)
            self.assertEqual((status, b"none of the lines of the results belongs" in out), (exits.DIFFERS, True), out)
            self.assertNotIn(b"separated", out)
            self.assertNotIn(b"UTF-16", out)

    def test_repeated_results_are_of_this_journal(self):
        status, out, _ = run_audit(AUCTION.read_bytes(), read_results(AUCTION) * 3)
        self.assertEqual((status, b"another journal" in out), (exits.DIFFERS, False))

    def test_too_little_time(self):
        """The other rules have been checked, and it is said how far the search is."""
        methods = {"enumeration": "0 of 512 selections have been tried"}
        if modules.has_module("scipy"):
            methods["highs"] = "HiGHS is still searching"
        for method, far in methods.items():
            status, out, err = run_audit(AUCTION.read_bytes(), read_results(AUCTION), "--best", "--by", method, "--seconds", "0")
            said = f"audit: the results obey the other rules, but after 0 seconds, {far}: --seconds gives more time\n"
            self.assertEqual((status, out, err), (exits.UNDECIDED, b"", said))

    @unittest.skipUnless(modules.has_module("scipy"), "scipy is missing (Debian's python3-scipy)")
    def test_highs_without_blocks(self):
        """The day has one selection, and the answer is as without HiGHS."""
        found = [run_audit(FIRST, results_of(FIRST, frozenset()), "--best", *words) for words in ((), ("--by", "highs"))]
        self.assertEqual((found[0][0], found[0]), (exits.DONE, found[1]))
        self.assertIn(b"; no selection is better: there is no block to select\n", found[1][1])

    @unittest.skipUnless(modules.has_module("scipy"), "scipy is missing (Debian's python3-scipy)")
    def test_the_words_for_what_highs_offers(self):
        from lib.audit import highs_search

        day = problem_of(AUCTION.read_bytes())
        accepted = frozenset(results.parse_results_and_faults(day, read_results(AUCTION))[0].accepted)
        welfare = selection.eligible_welfare(day, accepted)
        for offers, said in (
            ([None], "HiGHS found none better"),
            ([{0}, None], "HiGHS offers 1 other, which breaks a rule or ranks below"),
            ([{0}, {1}, None], "HiGHS offers 2 others, which break a rule or rank below"),
        ):
            answers = itertools.chain(offers, itertools.repeat(None))
            told = []
            with unittest.mock.patch.object(highs_search.Model, "solve_for_selection", lambda *_: next(answers)):
                self.assertEqual(highs_search.search_with_highs(day, accepted, welfare, Progress("audit", 60), told.append), (None, said))
            many = "HiGHS is still searching, and has offered 2 other selections"
            words = ["HiGHS is still searching", "HiGHS is still searching, and has offered 1 other selection", many]
            self.assertEqual(told, words[: len(offers)])

    def test_empty_lines_are_an_encoding_at_the_end_alone(self):
        for ends in (b"\n", b"\n\n\n", b"\r\n"):
            status, out, _ = run_audit(AUCTION.read_bytes(), read_results(AUCTION) + ends)
            self.assertEqual(status, exits.ENCODING)
            self.assertIn(b"the encoding differs: empty lines follow the last line\n", out)
        self.assertEqual(run_audit(AUCTION.read_bytes(), b"\n\n")[0], exits.DIFFERS)
        said = f"results line 4: the line is empty, and should not be there\n{NOT_COMPARED}".encode()
        edited = read_results(AUCTION).replace(b"period,2,", b"\nperiod,2,")
        self.assertEqual(run_audit(AUCTION.read_bytes(), edited), (exits.DIFFERS, said, ""))

    def test_a_text_in_the_place_of_another_is_named(self):
        journal_data, text = AUCTION.read_bytes(), read_results(AUCTION)
        replies, day = b"day,24\n1,done\n", journal_data + b"results\n" + text
        orders = table_files.csv_text([day_tables.ORDER]).encode()
        for words, one, other, said in (
            ([], text, journal_data, "journal has results instead of a journal"),
            ([], journal_data, journal_data, "results has a journal instead of results"),
            ([], replies, text, "journal has replies instead of a journal; --replies checks replies"),
            ([], journal_data, replies, "results has replies instead of results; --replies checks replies"),
            ([], journal_data, day, "results has the text of a day instead of results; give it as the only file"),
            (["--replies"], journal_data, text, "results has results instead of replies"),
            ([], orders, text, "journal has a table of orders instead of a journal; tools/table --journal makes a journal of it"),
        ):
            status, out, err = run_audit(one, other, *words)
            self.assertEqual((status, out), (exits.NO_INPUT, b""))
            self.assertTrue(err.startswith("audit: /") and err.endswith(f"/{said}\n"), err)

    def test_one_stray_or_missing_line_is_one_message(self):
        data, lines = AUCTION.read_bytes(), read_results(AUCTION).splitlines(keepends=True)
        for at in (0, 1, 2, 30, len(lines)):
            stray = b"".join([*lines[:at], b"stray,\xff\x0b\x1b,line\n", *lines[at:]])
            said = f"results line {at + 1}: 'stray,\\xff\\x0b\\x1b,line' doesn't belong here\n{NOT_COMPARED}".encode()
            self.assertEqual(run_audit(data, stray), (exits.DIFFERS, said, ""))
        for at, about in (0, "the day"), (1, "the welfare"), (4, "period 3"), (len(lines) - 1, "block OLD,UNIT-7"):
            missing = b"".join(lines[:at] + lines[at + 1 :])
            where = f"before results line {at + 1}" if at + 1 < len(lines) else f"at the end of the results, as line {at + 1}"
            said = f"the line for {about} is missing {where}\n{NOT_COMPARED}".encode()
            self.assertEqual(run_audit(data, missing), (exits.DIFFERS, said, ""))
        twice = b"".join(lines[:5] + lines[4:])
        self.assertEqual(run_audit(data, twice)[1].count(b"\n"), 2)

    def test_lines_in_another_order_are_said_to_be(self):
        """Which line stands where, and where it belongs: once for a line that moved, twice for two that were swapped."""
        data, lines = AUCTION.read_bytes(), read_results(AUCTION).splitlines(keepends=True)

        def capture_faults(*places):
            *faults, last = run_audit(data, b"".join(lines[place] for place in places))[1].decode().splitlines()
            self.assertEqual(f"{last}\n", NOT_COMPARED)
            return faults

        every = list(range(len(lines)))
        self.assertEqual(
            capture_faults(*every[:5], 6, 5, *every[7:]), ["results line 6: the line for period 5 stands here and belongs after that for period 4"]
        )
        first = capture_faults(1, 0, *every[2:])
        self.assertEqual(first, ["results line 1: the line for the welfare stands here and belongs after that for the day"])
        self.assertEqual(
            capture_faults(*every[:3], 20, *every[4:20], 3, *every[21:]),
            [
                "results line 4: the line for period 19 stands here and belongs after that for period 18",
                "results line 21: the line for period 2 stands here and belongs after that for period 1",
            ],
        )
        last = "results line 1: the line for block OLD,UNIT-7 stands here and belongs after that for block PUMP,"
        self.assertTrue(capture_faults(every[-1], *every[:-1])[0].startswith(last[:80]), capture_faults(every[-1], *every[:-1]))
        first = capture_faults(*every[1:], 0)
        self.assertEqual(first, [f"results line {len(lines)}: the line for the day stands here and belongs before all others"])

    def test_results_of_another_journal_are_said_to_be(self):
        """First of all, for other orders and for other numbers; and not for one wrong block."""
        data, text = AUCTION.read_bytes(), read_results(AUCTION)
        renamed = re.sub(rb"^(hour|block),([A-Z]+),", rb"\1,\2X,", text, flags=re.MULTILINE)
        status, out, _ = run_audit(data, renamed)
        said = "these seem to be the results of another journal: 89 of their 89 lines of orders are"
        said += " of orders that this journal doesn't have"
        self.assertEqual((status, out.decode().splitlines()[0]), (exits.DIFFERS, said))
        another = re.sub(rb"^((?:welfare|period|hour|block),(?:.*,)?)-?(\d+)$", rb"\g<1>1\2", text, flags=re.MULTILINE)
        status, out, _ = run_audit(data, another)
        said = r"^these seem to be the results of another journal: \d+ of their 115 lines are wrong$"
        self.assertRegex(out.decode().splitlines()[0], said)
        for word, other in ((b"STAY,accepted", b"STAY,rejected"), (b"UNIT-7,rejected", b"UNIT-7,accepted")):
            self.assertNotIn(b"another journal", run_audit(data, text.replace(word, other))[1])

    def test_a_price_without_a_choice(self):
        status, out, _ = run_audit(AUCTION.read_bytes(), read_results(AUCTION).replace(b"period,19,16500,", b"period,19,16501,"))
        self.assertIn(b"the price is 16501; the only supporting price is 16500 (cents)\n", out)

    def test_no_better_selection_is_looked_for_if_the_results_are_wrong(self):
        wrong = read_results(AUCTION).replace(b"welfare,3", b"welfare,4")
        status, out, err = run_audit(AUCTION.read_bytes(), wrong, "--best")
        self.assertEqual((status, out.count(b"\n"), err), (exits.DIFFERS, 3, ""))
        self.assertTrue(out.endswith(b"\nno better selection was looked for, since the results break other rules\n"), out)
        self.assertNotIn(b"no better selection", run_audit(AUCTION.read_bytes(), wrong)[1])

    def test_one_of_each_is_counted_so(self):
        data = journal_of("submit,A,B,hour,buy,1,24:1,,", "submit,A,K,block,buy,1,24:1,,")
        status, out, _ = run_audit(data, results_of(data, frozenset()))
        self.assertIn(b"24 periods, 1 hourly order, 0 of 1 block accepted,", out)
        self.assertEqual(run_audit(journal_of(), b"day,24\n1,done\n", "--replies")[1], b"as the rules say: 1 reply\n")

    def test_no_more_than_twenty_lines_are_told(self):
        data = AUCTION.read_bytes()
        junk = b"".join(b"%d\n" % number for number in range(500))
        status, out, _ = run_audit(data, read_results(AUCTION) + junk)
        lines = out.decode().splitlines()
        self.assertEqual((status, len(lines), lines[-2]), (exits.DIFFERS, 22, "and 480 more: --all prints every line"))
        self.assertEqual(len(run_audit(data, read_results(AUCTION) + junk, "--all")[1].splitlines()), 501)
        said = f"none of the lines of the results belongs to this journal: the first is '0'\n{NOT_COMPARED}".encode()
        self.assertEqual(run_audit(data, junk), (exits.DIFFERS, said, ""))
        for comma, name in (b";", b"semicolons"), (b"\t", b"tabs"):
            other = read_results(AUCTION).replace(b",", comma)
            shown = other.split(b"\n")[0].replace(b"\t", b"\\t")
            said = b"the fields of the results are separated by %s instead of commas: the first line is '%s'\n" % (name, shown)
            self.assertEqual(run_audit(data, other), (exits.DIFFERS, said + NOT_COMPARED.encode(), ""))
        self.assertEqual(run_audit(data, b""), (exits.DIFFERS, f"the results are empty\n{NOT_COMPARED}".encode(), ""))
        self.assertEqual(len(run_audit(data, b"day,24\n" + junk, "--replies")[1].splitlines()), 21)

    def test_refused_commands_are_counted(self):
        text = results_of(journal_of("submit,A,B,hour,buy,1,24:1,,"), frozenset())
        for command_line, said in (b"cancel,A,C,,,,,,\n", b"welfare 0.00 EUR, 1 of 3 commands refused"), (b"", b"welfare 0.00 EUR"):
            data = journal_of("submit,A,B,hour,buy,1,24:1,,").replace(b"close", command_line + b"close")
            status, out, _ = run_audit(data, text)
            self.assertEqual((status, out.splitlines()[0].endswith(said)), (exits.DONE, True), out)
        data = journal_of("submit,A,B,hour,buy,1,25:1,,")
        status, out, _ = run_audit(data, b"day,24\n1,refused,PeriodOutOfDay\n2,done\n", "--replies")
        self.assertEqual((status, out), (exits.DONE, b"as the rules say: 2 replies, 1 of 2 commands refused\n"))

    def test_no_option_is_ignored_or_short(self):
        for words in (
            ["--bes"],
            ["--best", "--sec", "3"],
            ["--best", "--seconds", "-3"],
            ["--best", "--seconds", "nan"],
            ["--best", "--seconds", "inf"],
            ["--best", "--seconds", "x"],
            ["--best", "--seconds", "\uff12"],
            ["--best", "--jobs", "\uff12"],
            ["--best", "--jobs", "0"],
            ["--best", "--jobs", "65"],
            ["--best", "--by", "highs", "--jobs", "2"],
            ["--by", "enumeration"],
            ["--seconds", "3"],
            ["--jobs", "2"],
            ["--best", "--replies"],
        ):
            status, out, err = run_audit(AUCTION.read_bytes(), read_results(AUCTION), *words)
            self.assertEqual((status, out), (exits.COMMAND_LINE, b""), words)
            self.assertIn("audit: error: ", err)
        for words in (["-", "-"], ["--replies", "-"]):
            self.assertEqual(run_tool("audit", *words)[0], exits.COMMAND_LINE)

    def test_amounts_have_the_digits_that_they_need(self):
        for amount, hours, said in (
            (245_193_556_800, 1, "245,193,556.80"),
            (0, 1, "0.00"),
            (-1, 1, "-0.001"),
            (2_500_000, 1, "2,500.00"),
            (1, Fraction(1, 4), "0.00025"),
            (10, Fraction(1, 4), "0.0025"),
            (12_394_787_000, Fraction(1, 4), "3,098,696.75"),
        ):
            self.assertEqual(exact_eur(amount, hours), said)

    def test_amounts_of_quarter_hours(self):
        _, out, _ = run_audit(QUARTERS.read_bytes(), read_results(QUARTERS))
        self.assertIn(b", welfare 3,098,696.75 EUR, ", out)
        self.assertIn(b"buyers pay 885,657.75 EUR, sellers receive 885,657.75 EUR; ", out)

    def test_the_words_for_what_was_tried(self):
        self.assertEqual(recursive_enumeration.tried_text(0, 1), "there is no block to select")
        self.assertEqual(recursive_enumeration.tried_text(1, 2), "each of 2 selections was tried")
        whole = "each of 16,777,216 selections was tried; 1 would be better if none of its blocks lost"
        self.assertEqual(recursive_enumeration.tried_text(24, 2**24, 1), whole)
        self.assertEqual(recursive_enumeration.tried_text(1, 2, 2), "each of 2 selections was tried; 2 would be better if none of their blocks lost")
        self.assertEqual(recursive_enumeration.tried_text(11, 7), "each of 2,048 selections was tried, of which links and groups admit 7")

    def test_quiet_and_help(self):
        self.assertEqual(run_audit(AUCTION.read_bytes(), read_results(AUCTION), "--quiet"), (0, b"", ""))
        doctored = read_results(AUCTION).replace(b"welfare,3", b"welfare,4")
        self.assertEqual(run_audit(AUCTION.read_bytes(), doctored, "--quiet"), (exits.DIFFERS, b"", ""))
        status, out, err = run_audit(AUCTION.read_bytes(), AUCTION.read_bytes(), "--quiet")
        self.assertEqual((status, out, "has a journal instead of results" in err), (exits.NO_INPUT, b"", True))
        status, out, _ = run_tool("audit", "--help")
        self.assertEqual((status, b"JOURNAL" in out), (0, True))
        self.assertIn(b"don't print the verdict and the faults", out)
        self.assertIn(b"tools/audit --best examples/auction-day.csv results.txt\n", out)
        self.assertEqual(run_audit((support.TOP / "examples/auction-day.csv").read_bytes(), read_results(AUCTION), "--best")[0], 0)


if __name__ == "__main__":
    unittest.main()
