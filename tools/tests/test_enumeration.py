"""The enumeration of all selections, compared with the plain reading of the rules on small days, and on books of the most blocks."""

import itertools
import random
import subprocess
import sys
import unittest
from unittest import mock

from support import TOP, draw_small_problems, journal_of, problem_of, results_of, run_audit, run_tool

from lib.audit import recursive_enumeration
from lib.base import rules
from lib.journal import book, journal
from lib.process.progress import Progress
from lib.results import period, selection
from lib.tool import exits, modules

# Of this many days each kind that a test asks for comes up 15 times or more: with all of 20 seeds, so another draw in `days` does no harm.
SMALL_DAYS = 400
MAKE_FAMILY, MAKE_BLOCKS = TOP / "bench" / "make_family.py", TOP / "bench" / "make_blocks.py"


def make_family(name, orders, *more):
    """The journal of a book that is hard for a search."""
    return subprocess.run([sys.executable, MAKE_FAMILY, name, orders, *more], capture_output=True, check=True).stdout


class Family(unittest.TestCase):
    def test_arguments_that_make_no_day_are_refused(self):
        for words, said in (
            (["ties", "x"], "hourly: 'x' isn't a number from 0 to 4000"),
            (["ties", "4001"], "hourly: '4001' isn't a number from 0 to 4000"),
            (["ties", "10", "25"], "blocks: '25' isn't a number from 0 to 24"),
            (["ties", "10", "-1"], "blocks: '-1' isn't a number from 0 to 24"),
            (["ties", "10", "24", "3"], "PERIODS: invalid choice: 3 (choose from"),
        ):
            ran = subprocess.run([sys.executable, MAKE_FAMILY, *words], capture_output=True, text=True)
            self.assertEqual((ran.returncode, ran.stdout), (2, ""))
            self.assertIn(f"\nmake_family.py: error: argument {said}", ran.stderr)
        for words, periods in (["links", "0", "0"], 24), (["links", "4000", "24", "4"], 96):
            read = journal.parse_journal(make_family(*words))
            self.assertEqual((read.periods, set(book.book_and_refusals(read)[1])), (periods, {None}))


class Blocks(unittest.TestCase):
    """Books with blocks as users have them."""

    def make_blocks(self, *words):
        ran = subprocess.run([sys.executable, MAKE_BLOCKS, *words], capture_output=True, text=True)
        return ran.returncode, ran.stdout, ran.stderr

    def test_arguments_that_make_no_day_are_refused(self):
        for words, said in (
            (["base", "x", "1"], "spread: 'x' isn't a number from 0 to 10000"),
            (["base", "5", "-1"], "seed: '-1' isn't a number from 0 to 1000000"),
            (["base", "5", "1", "2"], "PERIODS: invalid choice: 2 (choose from"),
            (["base", "5", "1", "1", "25"], "blocks: '25' isn't a number from 0 to 24"),
            (["base", "5", "1", "1", "24", "4001"], "hourly: '4001' isn't a number from 0 to 4000"),
            (["base", "5", "1", "1", "24", "200", "no"], "BONDS: invalid choice: 'no' (choose from"),
        ):
            status, text, errors = self.make_blocks(*words)
            self.assertEqual((status, text), (2, ""))
            self.assertIn(f"\nmake_blocks.py: error: argument {said}", errors)

    def test_the_classes_of_periods(self):
        """Periods in each of which every block has the same volume."""
        for kind, hours, quarters in (("base", 1, 1), ("peaks", 2, 2), ("shaped", 24, 24), ("random", 24, 96), ("wide", 24, 96)):
            for parts, wanted in (1, hours), (4, quarters):
                status, text, _ = self.make_blocks(kind, "50", "1", str(parts), "24", "100")
                closed, reasons = book.book_and_refusals(journal.parse_journal(text.encode()))
                self.assertEqual((status, set(reasons), closed.periods), (0, {None}, 24 * parts))
                blocks = [dict(block.order.volumes) for block in selection.Problem(closed).blocks]
                columns = {tuple(block.get(period, 0) for block in blocks) for period in range(1, 24 * parts + 1)}
                self.assertEqual((len(blocks), len(columns)), (24, wanted), kind)

    def test_one_block_is_odd(self):
        _, text, _ = self.make_blocks("odd", "50", "1")
        blocks = [line.split(",")[6] for line in text.splitlines() if ",block," in line]
        flat = [len({pair.split(":")[1] for pair in volumes.split(";")}) == 1 for volumes in blocks]
        self.assertEqual((len(flat), flat.count(False)), (24, 1))

    def test_bonds_tie_the_same_blocks_together(self):
        *fields, free = self.tied("free")
        self.assertEqual((fields, len(free)), ([set(), set()], 24))
        for bonds, linked, grouped in (("links", 20, 0), ("groups", 0, 24), ("both", 18, 18)):
            parents, groups, blocks = self.tied(bonds)
            self.assertEqual(blocks, free, bonds)
            self.assertEqual((len(parents), len(groups)), (linked, grouped), bonds)

    def tied(self, bonds):
        """The blocks with a parent, those of a group, and the side, the limit and the volumes of each."""
        status, text, _ = self.make_blocks("mixed", "20", "3", "1", "24", "200", bonds)
        closed, reasons = book.book_and_refusals(journal.parse_journal(text.encode()))
        self.assertEqual((status, set(reasons)), (0, {None}))
        day = selection.Problem(closed)
        parents = {place for place, parent in enumerate(day.parents) if parent is not None}
        groups = {place for members in day.groups().values() for place in members}
        return parents, groups, [(block.order.side, block.order.price, block.order.volumes) for block in day.blocks]

    def test_a_wide_book_has_one_price(self):
        _, text, _ = self.make_blocks("wide", "0", "1", "1", "24", "96")
        self.assertEqual({line.split(",")[5] for line in text.splitlines() if line.startswith("submit,")}, {"6000"})

    def test_the_same_hours_without_blocks(self):
        (_, blocks, _), (_, hours, _) = self.make_blocks("peaks", "5", "2"), self.make_blocks("peaks", "5", "2", "1", "0")
        self.assertEqual([line for line in blocks.splitlines() if ",block," not in line], hours.splitlines())


@unittest.skipUnless(modules.has_module("numpy"), "numpy is missing (Debian's python3-numpy)")
class Enumeration(unittest.TestCase):
    def better(self, day, accepted, welfare, few=1_024, **more):
        """`few` selections are looked at for every block's loss at once, and more of them for one block's at first."""
        from lib.audit import numpy_enumeration

        with mock.patch.object(numpy_enumeration, "FEW_SELECTIONS", few):
            return numpy_enumeration.search_with_numpy(day, frozenset(accepted), welfare, Progress("test", 600), **more)

    def test_the_best_of_small_days_and_none_above_it(self):
        """However the bits of a selection's number are parted, and however many threads there are."""
        tried = 0
        for day, selections in draw_small_problems(SMALL_DAYS):
            for rank, (welfare, accepted) in enumerate([*selections[:3], selections[-1]]):
                low_bits, jobs, few = (1 + tried) % 7, 1 + tried % 3, 1 + tried % 2 * 1_023
                found, _ = self.better(day, accepted, welfare, few, low_bits=low_bits, jobs=jobs)
                best_one = (welfare, accepted) == selections[0]
                self.assertEqual(best_one, rank == 0 or len(selections) == 1)
                self.assertEqual(found and (found.welfare, found.accepted), None if best_one else selections[0])
                tried += 1
        self.assertGreater(tried, 300)

    def test_small_days_have_links_groups_and_losses(self):
        """That the test above would see a defect in each."""
        found = {"links": 0, "groups": 0, "losses": 0, "ties": 0, "unbalanced": 0}
        for day, selections in draw_small_problems(SMALL_DAYS):
            found["links"] += any(parent is not None for parent in day.parents)
            found["groups"] += any(len(members) > 1 for members in day.groups().values())
            welfares = [welfare for welfare, _ in selections]
            found["ties"] += welfares.count(welfares[0]) > 1
            places = range(len(day.blocks))
            every = [frozenset(part) for count in range(len(places) + 1) for part in itertools.combinations(places, count)]
            linked = [selection.outcome(day, part).welfare for part in every if not any(selection.link_breaches(day, part))]
            found["unbalanced"] += None in linked
            found["losses"] += any(welfare is not None and welfare > welfares[0] for welfare in linked)
        self.assertGreater(min(found.values()), 5, found)

    def test_tables_of_a_period(self):
        from lib.audit import numpy_enumeration

        for number in range(300):
            rng = random.Random(number)
            middle = rng.choice([rules.LOWEST_PRICE + 2, 0, 5_000, rules.HIGHEST_PRICE - 2])
            orders = tuple(
                (rng.choice(["buy", "sell"]), middle + rng.randint(-2, 2), rng.randint(1, 3)) for _ in range(rng.randint(0, 5))
            )
            nets = [rng.randint(-4, 4) for _ in range(rng.randint(0, 5))]
            low_bits = rng.randint(0, len(nets))
            tables = numpy_enumeration.Period(orders, [-net for net in nets], low_bits)
            worths = tables.welfares().tolist()
            for chosen in range(2 ** len(nets)):
                flags = f"{chosen:0{len(nets)}b}" if nets else ""
                net = sum(net for net, flag in zip(nets, flags) if flag == "1")
                found = period.clear(orders, net)
                self.assertEqual(worths[tables.buys - net - tables.least], found.welfare if found else numpy_enumeration.NEVER)
                if found:
                    at = [chosen >> low_bits], [chosen & (2**low_bits - 1)]
                    self.assertEqual(tables.prices(*at).tolist(), [found.price])

    def test_sums_fit(self):
        """The sums of the fullest book are nearer to 0 than the number for a period that doesn't balance."""
        from lib.audit import numpy_enumeration

        volumes = rules.MOST_HOURLY + rules.MOST_BLOCKS * rules.GREATEST_PERIOD
        price = max(rules.HIGHEST_PRICE, -rules.LOWEST_PRICE)
        self.assertLess(2 * volumes * rules.GREATEST_VOLUME * price, -numpy_enumeration.NEVER)
        self.assertLess((rules.GREATEST_PERIOD + 1) * -numpy_enumeration.NEVER, 2**63)
        with mock.patch.object(numpy_enumeration, "NEVER", -(2**30)), self.assertRaises(AssertionError):
            numpy_enumeration.Selections(problem_of(make_family("market", "500")))

    def test_books_of_the_most_blocks(self):
        """The selection that is found is the best: nothing ranks above it, and it is found from wherever one begins."""
        for name, parts in ("links", "1"), ("groups", "4"), ("ties", "1"):
            with self.subTest(name):
                day = problem_of(make_family(name, "200", "24", parts))
                found, how = self.better(day, (), selection.eligible_welfare(day, frozenset()), jobs=2)
                self.assertIn("each of 16,777,216 selections was tried", how)
                again, _ = self.better(day, found.accepted, found.welfare)
                self.assertIsNone(again)
                one_less = found.accepted - {max(found.accepted)}
                welfare = selection.eligible_welfare(day, one_less)
                if welfare is not None:
                    self.assertEqual(self.better(day, one_less, welfare)[0], found)

    def test_losses_of_each_block(self):
        """Of one block at a time, and of all at once, in each selection that links and groups admit and that balances."""
        import numpy
        from lib.audit import numpy_enumeration

        losing = rescued = 0
        for day, _ in draw_small_problems(60):
            every = numpy_enumeration.Selections(day, low_bits=2)
            for number in range(2 ** len(day.blocks)):
                accepted = every.accepted_places(number)
                outcome = selection.outcome(day, accepted)
                if any(selection.link_breaches(day, accepted)) or outcome.welfare is None:
                    continue
                wanted = set(selection.losses_of(day, accepted, outcome.surpluses))
                numbers = numpy.array([number])
                self.assertEqual({place for place in accepted if every.are_losing(place, numbers)[0]}, wanted)
                self.assertEqual(set(numpy.flatnonzero(every.are_all_losing(numbers)[:, 0]).tolist()), wanted)
                losing += len(wanted)
                rescued += any(outcome.surpluses[place] < 0 for place in accepted - wanted)
        self.assertGreater(losing, 100)
        self.assertGreater(rescued, 5)

    def test_a_loss_of_one_is_a_loss(self):
        """Of a period at 50 cents with the block, the block asks 50 or 51; the welfare is greater with it."""
        import numpy
        from lib.audit import numpy_enumeration

        for few, (limit, accepted) in itertools.product((1, 1_024), ((50, frozenset({0})), (51, None))):
            hourly = ["submit,A,B,hour,buy,100,1:10,,", "submit,A,S1,hour,sell,40,1:9,,", "submit,A,S2,hour,sell,60,1:1,,"]
            day = problem_of(journal_of(*hourly, f"submit,A,K,block,sell,{limit},1:1,,"))
            found, _ = self.better(day, (), selection.eligible_welfare(day, frozenset()), few)
            self.assertEqual(found and found.accepted, accepted)
            self.assertEqual(numpy_enumeration.Selections(day).are_losing(0, numpy.array([1])).tolist(), [accepted is None])

    def test_as_many_are_tried_as_there_are(self):
        blocks = [f"submit,A,K{number},block,sell,1,1:1,{'K0' if number else ''},{'G' if number else ''}" for number in range(6)]
        day = problem_of(journal_of(*blocks, "submit,A,B,hour,buy,1000,1:100,,"))
        found, how = self.better(day, {0, 1}, selection.eligible_welfare(day, frozenset({0, 1})), low_bits=2)
        self.assertIsNone(found)
        self.assertEqual(how, "each of 64 selections was tried, of which links and groups admit 7")

    def test_what_would_be_better_but_for_a_loss_is_counted(self):
        day = problem_of((TOP / "examples" / "auction-day.csv").read_bytes())
        found, _ = recursive_enumeration.search_recursively(day)
        _, how = self.better(day, found.accepted, found.welfare)
        self.assertIn("; 1 would be better if none of its blocks lost", how)

    def test_time_is_over(self):
        day = problem_of(make_family("spread", "200"))
        with self.assertRaisesRegex(TimeoutError, "after 0 seconds, 0 of 0 selections have been tried"):
            from lib.audit import numpy_enumeration

            numpy_enumeration.search_with_numpy(day, frozenset(), selection.eligible_welfare(day, frozenset()), Progress("test", 0), jobs=2)


@unittest.skipUnless(modules.has_module("numpy"), "numpy is missing (Debian's python3-numpy)")
class CommandLine(unittest.TestCase):
    def test_a_better_selection_is_told(self):
        data = make_family("market", "200", "12")
        day = problem_of(data)
        from lib.audit import numpy_enumeration

        found, _ = numpy_enumeration.search_with_numpy(day, frozenset(), selection.eligible_welfare(day, frozenset()), Progress("test", 600))
        status, out, _ = run_audit(data, results_of(data, found.accepted), "--best", "--jobs", "2")
        self.assertEqual((status, b"each of 4,096 selections was tried" in out), (exits.DONE, True))
        status, out, _ = run_audit(data, results_of(data, frozenset()), "--best")
        names = " ".join(str(day.blocks[place]) for place in sorted(found.accepted))
        lines = out.decode().splitlines()
        euros = day.euros_text(found.welfare)
        self.assertEqual(status, exits.DIFFERS)
        self.assertTrue(lines[0].startswith(f"a better selection accepts {names}: it has a greater welfare, {euros} EUR, which is "))
        self.assertEqual(lines[1], f"unlike the results it accepts {names}")
        better, published = (selection.outcome(day, accepted).cleared for accepted in (found.accepted, frozenset()))
        changed = [
            f"its price in period {number} is {one.price / 100:.2f} EUR/MWh, and the results have {published[number].price / 100:.2f}"
            for number, one in better.items()
            if one.price != published[number].price
        ]
        self.assertEqual(lines[2:], changed)
        self.assertGreater(len(changed), 3)

    @unittest.skipUnless(modules.is_debian_python(), "this isn't Debian's Python")
    def test_without_numpy_fewer_blocks_are_tried(self):
        """By the same results, and the same lines about the better one."""
        data = make_family("market", "200", "11")
        found, _ = recursive_enumeration.search_recursively(problem_of(data))
        for accepted in found.accepted, frozenset():
            text = data + b"results\n" + results_of(data, accepted)
            ran = [run_tool("audit", "--best", "-", data=text, python=python) for python in ([sys.executable], [sys.executable, "-S"])]
            self.assertEqual(ran[0][0], exits.DONE if accepted else exits.DIFFERS)
            self.assertEqual(ran[0][1].partition(b"; ")[0], ran[1][1].partition(b"; ")[0])
            self.assertEqual((ran[0][0], ran[0][2]), (ran[1][0], ran[1][2]))

    def test_every_way_of_checking_takes_no_longer_than_it_may(self):
        ways = ["--by", "enumeration"], ["--by", "highs"]
        for count, way in itertools.product(("6", "12"), ways if modules.has_module("scipy") else ways[:1]):
            data = make_family("market", "200", count)
            accepted = recursive_enumeration.search_recursively(problem_of(data))[0].accepted if count == "6" else frozenset()
            status, out, err = run_audit(data, results_of(data, accepted), "--best", *way, "--seconds", "0")
            self.assertEqual((status, out), (exits.UNDECIDED, b""), (way, err))
            self.assertIn("after 0 seconds", err)


if __name__ == "__main__":
    unittest.main()
