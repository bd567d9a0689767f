"""The reason that decided each block: cases worked out by hand, and random families, of which everything is tried."""

import random
import re
import unittest

from support import AUCTION, TOP, day_of, journal_of, problem_of, read_results, results_of

from lib.journal import book, journal
from lib.results import decisions, families, judgement, period, selection
from lib.tables import day_tables
from plain import Plain

# Periods in which 50 MW are bought at 80 EUR, and offered at 60. Without a block the price is 70 EUR; with a selling one it is 60,
# and each MW of it saves 60 EUR.
PERIODS = [line for number in (1, 2, 3) for line in (
    f"submit,H,B{number},hour,buy,8000,{number}:500,,", f"submit,H,S{number},hour,sell,6000,{number}:500,,")]


def kinds_and_texts(data, accepted):
    """The kind and the words of each block."""
    day = day_of(data, results_of(data, frozenset(accepted)))
    found = decisions.decisions(day.problem, day.published.accepted, day.outcome)
    return [(decision.kind, decision.why) for decision in found]


def best_of(data):
    read, _ = book.book_and_refusals(journal.parse_journal(data))
    return Plain(read).best()

# Behind the blocks that would be accepted too.
IF_ADDED_WORDS = "were added and the other blocks stayed as they are,"


class Hand(unittest.TestCase):
    def test_the_best_family_of_the_page_of_rules(self):
        page = " ".join((TOP / "docs" / "RULES.md").read_text().split())
        said = r"Say A loses (\d+) EUR at the prices, its child B gains (\d+), and its child C loses (\d+): then A and B are the best family of both"
        loss, gain, other = map(int, re.search(said, page).groups())
        blocks = [f"submit,GAS,{name},block,sell,5000,1:10,{parent}," for name, parent in (("A", ""), ("B", "A"), ("C", "A"))]
        found = [families.best_family(problem_of(journal_of(*blocks)), frozenset(), [-loss, gain, -other], place) for place in range(3)]
        self.assertEqual([(family.members, family.gain()) for family in found[:2]], [({0, 1}, gain - loss)] * 2)
        self.assertEqual(found[2].members, {0, 1, 2})

    def test_a_family_that_would_gain(self):
        # Of 100 MW that are bought at 170 EUR 60 are offered at 100. The price is 170: START loses 1 MW times 10 EUR, and RUN gains
        # 49 MW times 50 EUR. With both 110 MW are offered, and the price is 100.
        data = journal_of(
            "submit,H,B,hour,buy,17000,1:1000,,",
            "submit,H,S,hour,sell,10000,1:600,,",
            "submit,A,START,block,sell,18000,1:10,,",
            "submit,A,RUN,block,sell,12000,1:490,START,",
        )
        self.assertEqual(best_of(data), frozenset())
        # If both are accepted nevertheless, START loses.
        said = "loses at the prices by itself, and with RUN it loses 1,060.00 EUR"
        self.assertEqual(kinds_and_texts(data, {0, 1})[0], (judgement.ACCEPTED, said))
        end = "though the welfare would be 1,740.00 EUR greater"
        self.assertEqual(
            kinds_and_texts(data, ()),
            [
                (
                    judgement.PARADOX,
                    f"with RUN it would gain 2,440.00 EUR at the prices, but if both {IF_ADDED_WORDS}"
                    " the block itself would lose 1,060.00 EUR together with its accepted descendants and A,RUN would lose"
                    f" 980.00 EUR, {end}",
                ),
                (
                    judgement.PARADOX,
                    f"with START it would gain 2,440.00 EUR at the prices, but if both {IF_ADDED_WORDS}"
                    " the block itself would lose 980.00 EUR and A,START would lose 1,060.00 EUR together with its accepted"
                    f" descendants, {end}",
                ),
            ],
        )

    def test_a_sibling_that_covers_their_parent(self):
        # In each period 1 MW is bought at 60 EUR and 1 MW at 52, and 1.5 MW are offered at 50. At the price, 52, PARENT loses 10 EUR,
        # LEFT gains 5 and RIGHT 8: only together do the three gain.
        data = journal_of(
            *(
                f"submit,H,{name}{number},hour,{side},{price},{number}:{volume},,"
                for number in (1, 2, 3)
                for name, side, price, volume in (("B", "buy", 6000, 10), ("C", "buy", 5200, 10), ("S", "sell", 5000, 15))
            ),
            "submit,A,PARENT,block,sell,6200,1:10,,",
            "submit,A,LEFT,block,sell,4700,2:10,PARENT,",
            "submit,A,RIGHT,block,sell,4400,3:10,PARENT,",
        )
        self.assertEqual(best_of(data), frozenset())
        day = day_of(data, results_of(data, frozenset()))
        found = decisions.decisions(day.problem, day.published.accepted, day.outcome)
        self.assertEqual([(one.kind, one.family.members) for one in found], [(judgement.PARADOX, frozenset(range(3)))] * 3)

    def test_a_rival_whose_exchange_orphans_a_child(self):
        # P saves 400 EUR and C 500; Q, which would gain more at the prices than P, saves 450.
        data = journal_of(
            *PERIODS,
            "submit,A,P,block,sell,2000,1:100,,X",
            "submit,A,C,block,sell,1000,3:100,P,",
            "submit,A,Q,block,sell,1500,2:100,,X",
        )
        self.assertEqual(best_of(data), {0, 1})
        kind, why = kinds_and_texts(data, {0, 1})[2]
        self.assertEqual(kind, judgement.REJECTED)
        self.assertEqual(
            why,
            "would gain 550.00 EUR at the prices; P of its group X is accepted, and with Q in its place and that of C, which can't be"
            " accepted without it, the welfare would be 450.00 EUR less",
        )

    def test_a_parent_that_would_lose_even_with_its_child(self):
        # At the price of 70 EUR P would lose 300 EUR, and C gain 250; with both, at 60 EUR, 400 and 150.
        data = journal_of(*PERIODS, "submit,A,P,block,sell,10000,1:100,,", "submit,A,C,block,sell,4500,2:100,P,")
        self.assertEqual(best_of(data), frozenset())
        self.assertEqual(
            kinds_and_texts(data, ()),
            [
                (judgement.REJECTED, "would lose 50.00 EUR at the prices, even with C"),
                (
                    judgement.REJECTED,
                    "would gain 250.00 EUR at the prices, but its parent P, without which it can't be accepted, would lose 50.00"
                    f" EUR even with it; if both {IF_ADDED_WORDS} A,P would lose 250.00"
                    " EUR together with its accepted descendants, and the welfare would be 250.00 EUR less",
                ),
            ],
        )

    def test_a_child_that_would_lose(self):
        data = journal_of(*PERIODS, "submit,A,P,block,sell,10000,1:100,,", "submit,A,C,block,sell,9000,2:100,P,")
        why = "would lose 200.00 EUR at the prices; its parent P is rejected"
        self.assertEqual(kinds_and_texts(data, ())[1], (judgement.REJECTED, why))
        self.assertEqual(kinds_and_texts(data, ())[0], (judgement.REJECTED, "would lose 300.00 EUR at the prices"))

    def test_a_parent_that_loses_and_whose_child_has_no_price(self):
        """Results that break the rules accept both, though nobody buys what C sells."""
        data = journal_of(*PERIODS[:2], "submit,A,P,block,sell,8000,1:100,,", "submit,A,C,block,sell,4500,2:100,P,")
        problem = problem_of(data)
        found = decisions.decisions(problem, {0, 1}, selection.outcome(problem, {0, 1}))
        said = "loses at the prices by itself, and a period of C, which descends from it, doesn't balance"
        self.assertEqual(found[0], decisions.Decision(judgement.ACCEPTED, said, judgement.NO_PRICE))

    def test_of_two_children_in_one_group_the_better_one_is_taken(self):
        # P loses 100 EUR at the price of 70; C1 gains 50, C2 150, D 20. Only C2 and D, a child without a group, are of use.
        data = journal_of(
            *PERIODS,
            "submit,A,P,block,sell,8000,1:100,,",
            "submit,A,C1,block,sell,6500,2:100,P,X",
            "submit,A,C2,block,sell,5500,2:100,P,X",
            "submit,A,D,block,sell,6800,3:100,P,",
        )
        found = kinds_and_texts(data, ())
        said = f"with C2 and D it would gain 70.00 EUR at the prices, but if all 3 {IF_ADDED_WORDS}"
        self.assertTrue(found[0][1].startswith(said), found[0])
        # C1 with P and D would lose 30 EUR.
        self.assertIn("would gain 50.00 EUR at the prices, but its parent P, without which it can't be", found[1][1])
        self.assertIn(f"accepted, would lose 30.00 EUR even with C1 and D; if all 3 {IF_ADDED_WORDS}", found[1][1])

    def test_a_rival_of_the_parent(self):
        # R saves 400 EUR; P would lose 300 EUR at the price of 70, and C gain 500: 200 EUR, and with C at 60 EUR nothing.
        data = journal_of(
            *PERIODS,
            "submit,A,R,block,sell,2000,3:100,,X",
            "submit,A,P,block,sell,10000,1:100,,X",
            "submit,A,C,block,sell,2000,2:100,P,",
        )
        self.assertEqual(best_of(data), {0})
        found = kinds_and_texts(data, {0})
        self.assertEqual(
            found[2],
            (
                judgement.REJECTED,
                "with P it would gain 200.00 EUR at the prices; R of the group X of P is accepted, and with P and C in its place the"
                " welfare would be 400.00 EUR less",
            ),
        )
        self.assertIn("with C it would gain 200.00 EUR at the prices; R of its group X is accepted, and", found[1][1])

    def test_a_block_that_can_never_be_accepted(self):
        data = journal_of(*PERIODS, "submit,A,P,block,sell,2000,1:100,,X", "submit,A,C,block,sell,10,2:100,P,X")
        why = "can never be accepted, because P, from which it descends, and it are both of the group X"
        self.assertEqual(kinds_and_texts(data, {0})[1], (judgement.REJECTED, why))
        data = journal_of(*PERIODS, "submit,A,P,block,sell,2000,1:100,,X", "submit,A,C,block,sell,10,2:100,P,X",
                          "submit,A,D,block,sell,10,2:100,C,")
        why = "can never be accepted, because P and C, from which it descends, are both of the group X"
        self.assertEqual(kinds_and_texts(data, {0})[2], (judgement.REJECTED, why))

    def test_equal_welfare(self):
        data = journal_of(*PERIODS, "submit,A,K1,block,sell,2000,1:500,,X", "submit,A,K2,block,sell,2000,2:500,,X")
        self.assertEqual(best_of(data), {0})
        end = "in its place the welfare would be the same, and"
        self.assertTrue(kinds_and_texts(data, {0})[1][1].endswith(f"{end} of equal selections the one with the earlier block is taken"))
        self.assertTrue(kinds_and_texts(data, {1})[0][1].endswith(f"{end} it ranks above"))

    def test_a_twin_that_stands_earlier(self):
        """It is the reason, regardless of the result if both were accepted."""
        data = journal_of("submit,A,B,hour,buy,6000,8:10,,", "submit,A,K1,block,sell,100,8:10,,", "submit,B,K1,block,sell,100,8:10,,")
        self.assertEqual(best_of(data), {0})
        why = "would gain 59.00 EUR at the prices, but A,K1 offers the same and stands earlier in the book"
        self.assertEqual(kinds_and_texts(data, {0})[1], (judgement.PARADOX, why))
        other = data.replace(b"submit,B,K1,block,sell,100", b"submit,B,K1,block,sell,101")
        unmatched = f"if it {IF_ADDED_WORDS} period 8 wouldn't balance: 1.0 MW would have no buyer"
        self.assertIn(unmatched, kinds_and_texts(other, {0})[1][1])
        # Of results that accept the later one, it isn't the reason: they aren't the best.
        self.assertIn(unmatched, kinds_and_texts(data, {1})[0][1])

    def test_codes(self):
        """Each is in the page of the tables, and each of a block that results can have is found."""
        page = (TOP / "docs" / "TABLES.md").read_text()
        values = {**vars(judgement), **vars(decisions)}
        codes = {value for name, value in values.items() if name.isupper() and isinstance(value, str)} - {judgement.ACCEPTED, judgement.REJECTED, judgement.PARADOX}
        self.assertEqual(set(re.findall(r"^\| `([a-z-]+)` \| (?:hourly order|(?:accepted |rejected )?block) \|", page, re.MULTILINE)), codes)
        found = set()
        for data, _, best in drawn(400):
            day = problem_of(data)
            found |= {decision.code for decision in decisions.decisions(day, best, selection.outcome(day, best))}
        right = {"gains", "covered", "loses", "group", "parent", "never", "would-lose", "unbalanced", "less-welfare", "tie"}
        self.assertLessEqual(found, right)
        self.assertLessEqual(right - {"tie", "never", "less-welfare"}, found)

    def test_hourly_orders(self):
        day = day_of(AUCTION.read_bytes(), read_results(AUCTION))
        found = {name: (row.code, row.outcome, row.why) for (_, name), row in day_tables.results_by_row(day).items()}
        said = "its limit is the price, 92.00 EUR/MWh; not all that is offered at it is needed"
        self.assertEqual(found["FLEX-1"], ("at-the-price", "in part", said))
        self.assertEqual(found["FLEX-2"], ("out-of-the-money", "not", "its limit is worse than the price, 47.00 EUR/MWh"))
        self.assertEqual(found["LOAD-1"], ("in-the-money", "in full", "its limit is better than the price, 92.00 EUR/MWh"))
        data = journal_of("submit,A,SELL,hour,sell,1000,1:50,,", "submit,B,BUY,hour,buy,2000,1:100,,")
        why = {name: row.why for (_, name), row in day_tables.results_by_row(day_of(data, results_of(data, frozenset()))).items()}
        self.assertEqual(why["BUY"], "its limit is the price, 20.00 EUR/MWh; less is offered than is wanted at it")
        self.assertEqual(why["SELL"], "its limit is better than the price, 20.00 EUR/MWh")
        data = journal_of("submit,A,B,hour,buy,6000,8:10,,")
        day = day_of(data, results_of(data, frozenset()))
        self.assertEqual(day_tables.results_by_row(day)["A", "B"].why, "nothing is traded in period 8")

    def test_the_auction_day(self):
        day = day_of(AUCTION.read_bytes(), read_results(AUCTION))
        found = decisions.decisions(day.problem, day.published.accepted, day.outcome)
        kinds = [decision.kind for decision in found]
        self.assertEqual(kinds[:5], [judgement.ACCEPTED] * 5)
        self.assertEqual(kinds[5:], [judgement.REJECTED, judgement.ACCEPTED, judgement.REJECTED, judgement.PARADOX])
        self.assertIn("would lose 8,050.00 EUR at the prices", found[5].why)
        self.assertIn("in its place the welfare would be 5,120.00 EUR less", found[7].why)
        why = f", but if it {IF_ADDED_WORDS} the block itself would lose 270.00 EUR, though the welfare would be 2,810.00 EUR greater"
        self.assertIn(why, found[8].why)

    def test_a_period_that_would_not_balance(self):
        data = journal_of(
            "submit,A,B1,hour,buy,6000,1:10,,",
            "submit,A,K1,block,sell,7000,1:5,,",
            "submit,A,K2,block,sell,100,1:5,K1,",
            "submit,A,K3,block,sell,100,1:30,,",
        )
        found = kinds_and_texts(data, ())
        self.assertTrue(found[2][1].endswith(f"{IF_ADDED_WORDS} period 1 wouldn't balance: 2.0 MW would have no buyer"))
        self.assertEqual(found[2][0], judgement.PARADOX)
        data = journal_of("submit,A,S1,hour,sell,1,1:3,,", "submit,A,S2,hour,sell,1,2:7,,", "submit,A,K,block,buy,9,1:3;2:10,,")
        self.assertTrue(kinds_and_texts(data, ())[0][1].endswith(f"{IF_ADDED_WORDS} period 2 wouldn't balance: 0.3 MW would have no seller"))

    def test_the_volume_that_finds_no_other_side(self):
        """With so much less of the block in the period, and not with a tenth more, the period balances."""
        found = 0
        for data, _, best in drawn(300):
            day = problem_of(data)
            for place, decision in enumerate(decisions.decisions(day, best, selection.outcome(day, best))):
                if decision.code != judgement.UNBALANCED:
                    continue
                words = r"period ([0-9]+) wouldn't balance: ([0-9.]+) MW would have no (buyer|seller)$"
                number, volume, side = re.search(words, decision.why).groups()
                tenths, orders = round(float(volume) * 10), day.orders[int(number)]
                net = sum(dict(selection.net_volumes(day.blocks[at].order)).get(int(number), 0) for at in decision.other.accepted)
                ends = [net - less if side == "buyer" else net + less for less in (tenths, tenths - 1)]
                is_balanced = [period.clear(orders, end) is not None for end in ends]
                self.assertEqual(is_balanced, [True, False])
                found += 1
        self.assertGreater(found, 10)


def drawn(count):
    """Random days of few small orders and of families, with the best selection of each."""
    made = 0
    for number in range(10 * count):
        rng = random.Random(f"families {number}")
        numbers = range(1, rng.choice([2, 3, 3, 4]))
        lines = []
        for at in range(rng.randint(2, 9)):
            side = rng.choice(["buy", "sell"])
            price = 5_000 + 500 * rng.randint(-4, 4) + (1_500 if side == "buy" else 0)
            lines.append(f"submit,H,H{at},hour,{side},{price},{rng.choice(numbers)}:{rng.randint(1, 9)},,")
        for at in range(rng.randint(2, 5)):
            parent = f"K{rng.randrange(at)}" if at and rng.random() < 0.7 else ""
            group = rng.choice("XY") if rng.random() < 0.4 else ""
            periods = sorted(rng.sample(numbers, rng.randint(1, min(2, len(numbers)))))
            volumes = ";".join(f"{period}:{rng.randint(1, 4)}" for period in periods)
            price = 5_000 + 400 * rng.randint(-5, 6)
            lines.append(f"submit,A,K{at},block,{rng.choice(['sell', 'sell', 'buy'])},{price},{volumes},{parent},{group}")
        data = journal_of(*lines)
        plain = Plain(book.book_and_refusals(journal.parse_journal(data))[0])
        best = plain.best()
        if len(best) < len(plain.blocks):
            made += 1
            yield data, plain, best
        if made == count:
            return


WORTH = re.compile(r"the welfare would be (?:([0-9.]+) EUR (greater|less)|(the same))")


class Random(unittest.TestCase):
    def test_what_is_named_is_the_best_family_and_worth_what_is_told(self):
        seen = dict.fromkeys(["blocks", "families", "losing", "rivals", "orphans", "paradox", "never", "unbalanced"], 0)
        for data, plain, best in drawn(2_000):
            day = problem_of(data)
            outcome = selection.outcome(day, best)
            self.assertEqual(outcome.welfare, plain.welfare_or_none(best), data)
            for place, decision in enumerate(decisions.decisions(day, best, outcome)):
                if place not in best:
                    with self.subTest(data=data, place=place, why=decision.why):
                        self.judge(day, plain, best, place, decision, seen)
        for kind, count in seen.items():
            self.assertGreater(count, 20, kind)

    def judge(self, day, plain, best, place, decision, seen):
        surpluses, choices = plain.surpluses(best), dict(plain.families(best, place))
        seen["blocks"] += 1
        if not choices:
            seen["never"] += 1
            self.assertIn("can never be accepted", decision.why)
            return
        ranks = {family: self.rank(plain, family, surpluses) for family in choices}
        family = decision.family.members
        self.assertEqual(ranks[family], max(ranks.values()))
        self.assertEqual((decision.other.accepted, decision.family.gain()), (choices[family], ranks[family][1]))
        without, welfare = plain.welfare_or_none(best), plain.welfare_or_none(choices[family])
        self.assertEqual(decision.other.welfare, welfare)
        lost = best - choices[family]
        is_paradox = not lost and ranks[family][0] and ranks[family][1] > 0 and plain.gain(place, family, surpluses) > 0
        self.assertEqual(decision.kind, judgement.PARADOX if is_paradox else judgement.REJECTED)
        named = set(re.findall(r"K\d", decision.why))
        if welfare is None:
            seen["unbalanced"] += 1
            said = "wouldn't balance" in decision.why or "offers the same" in decision.why
            self.assertTrue(said or surpluses[place] < 0, decision.why)
        else:
            losers = plain.losers(choices[family], plain.surpluses(choices[family]))
            self.assertEqual(decision.other.losers, losers)
            # The selection is the best one: the named reason must speak against another.
            self.assertTrue(losers or welfare <= without)
            self.check_worth_words(decision, welfare - without, losers, place)
        for kind, holds in {
            "families": len(family) > 1,
            "losing": not ranks[family][0],
            "rivals": bool(lost),
            "orphans": len(lost) > len(decision.family.rivals),
            "paradox": is_paradox,
        }.items():
            seen[kind] += holds
        if lost:
            self.assertLessEqual({day.blocks[other].name for other in lost}, named)

    def rank(self, plain, family, surpluses):
        """That nobody in it loses at the prices, and its gain; the fewer blocks the better."""
        return not plain.losers(family, surpluses), sum(surpluses[place] for place in family), -len(family)

    def check_worth_words(self, decision, more, losers, place):
        """The text about the welfare and the losers; it is silent about a block that would lose by itself, whose family
        can't be worth more."""
        found = WORTH.search(decision.why)
        if found is None:
            self.assertLess(decision.family.gains[place], 0)
            if len(decision.family.needed) == 1:
                self.assertLess(more, 0)
            return
        worth, way, _ = found.groups()
        self.assertAlmostEqual(float(worth or 0) * (1_000 if way == "greater" else -1_000), more, delta=5)
        named = re.findall(r"(itself|A,K\d) would lose ([0-9.]+) EUR", decision.why)
        names = {"itself" if loser == place else f"A,K{loser}": loss for loser, loss in losers.items()}
        self.assertEqual(len(named), min(len(losers), decisions.MOST_LOSERS))
        for name, loss in named:
            self.assertAlmostEqual(float(loss) * 1_000, names[name], delta=5)


if __name__ == "__main__":
    unittest.main()
