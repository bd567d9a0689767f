"""The sums of published results: the faults that they find in doctored ones by themselves, and that right results have none wrong."""

import json
import unittest

import support
from support import AUCTION, QUARTERS, journal_of, problem_of, read_cleared_cases, read_results, results_of, run_audit
from test_audit import changed_numbers

from lib.results import results, sums, trades
from lib.tool import exits

# ONE's sell of period 1 sets its price, 40 EUR; the block K1 loses there, and its child K2 gains more in period 2.
FAMILY = journal_of(
    "submit,TOWN,B1,hour,buy,6000,1:120,,",
    "submit,ONE,S1,hour,sell,4000,1:100,,",
    "submit,UNIT,K1,block,sell,4100,1:50,,",
    "submit,UNIT,K2,block,sell,1000,2:50,K1,",
    "submit,TOWN,B2,hour,buy,6000,2:50,,",
)
ACCEPTED = results_of(FAMILY, frozenset({0, 1}))


def read(data, text):
    day = problem_of(data)
    said, wrong = results.parse_results_and_faults(day, text)
    assert not wrong, wrong
    return day, said


def of(found):
    return [(fault.kind, fault.line, fault.about, fault.partition(": ")[2]) for fault in found]


def doctored(**changes):
    """The sums that are wrong in the results of the family, if these parts of them are others."""
    day, said = read(FAMILY, ACCEPTED)
    return of(sums.sum_faults(day, said._replace(**changes)))


class Sums(unittest.TestCase):
    def test_worked_results(self):
        for name, data, text in read_cleared_cases():
            with self.subTest(name):
                self.assertEqual(of(sums.sum_faults(*read(data, text))), [])

    def test_the_family(self):
        day, said = read(FAMILY, ACCEPTED)
        self.assertEqual((said.prices[:2], said.volumes[:2], said.executed), ([4_000, 6_000], [120, 50], [120, 70, 50]))
        self.assertEqual((said.welfare, said.surpluses), (485_000, [-5_000, 250_000]))
        self.assertEqual(sums.sums(day, said), (780_000, 780_000, 240_000, 245_000))
        line = "by adding: buyers pay 780.00 EUR, sellers receive 780.00 EUR; the surpluses add up to the welfare, and nobody loses"
        self.assertEqual(sums.payments_line(day, sums.sums(day, said)), line)

    def test_a_volume_that_differs(self):
        prices, volumes = read(FAMILY, ACCEPTED)[1][1:3]
        about = "money", 3, "period 1"
        self.assertEqual(
            doctored(executed=[121, 70, 50])[0], (*about, "period 1: the orders buy 121 and sell 120, and the volume is 120")
        )
        self.assertEqual(
            doctored(volumes=[121, *volumes[1:]]), [(*about, "period 1: the orders buy 120 and sell 120, and the volume is 121")]
        )
        # A block less: nobody sells the volume that TOWN buys in period 2.
        self.assertIn(
            ("money", 4, "period 2", "period 2: the orders buy 50 and sell 0, and the volume is 50"), doctored(accepted={0})
        )
        # Money balances at each price.
        self.assertEqual([fault[0] for fault in doctored(prices=[4_001, *prices[1:]])], ["sum"])

    def test_a_welfare_that_differs(self):
        words = "the welfare is 485001, and the surpluses add up to 485000"
        self.assertEqual(doctored(welfare=485_001), [("sum", 2, "the welfare", words)])
        words = "the welfare is 485000, and the surpluses add up to 485001"
        self.assertEqual(doctored(surpluses=[-5_000, 250_001]), [("sum", 2, "the welfare", words)])

    def test_the_surplus_of_a_rejected_block_counts_nowhere(self):
        alone = results_of(FAMILY, frozenset())
        day, said = read(FAMILY, alone)
        self.assertEqual((said.accepted, said.surpluses), (set(), [95_000, 250_000]))
        self.assertEqual(of(sums.sum_faults(day, said._replace(surpluses=[-1, 7]))), [])

    def test_an_hourly_order_that_loses(self):
        # At 61 EUR TOWN's order of period 1 wouldn't buy.
        prices = read(FAMILY, ACCEPTED)[1].prices
        found = doctored(prices=[6_100, *prices[1:]])
        self.assertIn(
            ("loss", 27, "hour TOWN,B1", "hour TOWN,B1: at the price it loses 12000 with its executed volume"), found
        )
        # ONE gains at that price. TOWN has no other gain, and so loses as much.
        words = "hour TOWN,B1: TOWN loses 12000 with all its orders, and most with this one"
        self.assertIn(("loss", 27, "hour TOWN,B1", words), found)
        self.assertNotIn("ONE", "".join(words for *_, words in found))

    def test_a_participant_that_loses(self):
        # K1 may lose, but not more than K2 gains.
        self.assertEqual([fault[0] for fault in doctored(surpluses=[-250_000, 250_000])], ["sum"])
        found = doctored(surpluses=[-250_001, 250_000])
        words = "block UNIT,K1: UNIT loses 1 with all its orders, and most with this one"
        self.assertEqual(found[0], ("loss", 29, "block UNIT,K1", words))

    def test_they_name_each_changed_number_that_they_read(self):
        """The sums alone, without the other checks, refuse each other welfare, volume, executed volume and surplus of an accepted block."""
        refused = 0
        for name, data, text in read_cleared_cases():
            day = problem_of(data)
            for other, line in changed_numbers(text):
                said, wrong = results.parse_results_and_faults(day, other)
                kind, *fields = text.splitlines()[line - 1].decode().split(",")
                is_price = kind == "period" and other.splitlines()[line - 1].decode().split(",")[3] == fields[2]
                if said is None or wrong or is_price or kind == "block" and fields[2] == "rejected":
                    continue
                with self.subTest(name, line=line):
                    self.assertNotEqual(of(sums.sum_faults(day, said)), [])
                refused += 1
        self.assertGreater(refused, 1_000)


class Tool(unittest.TestCase):
    def test_the_money_is_one_line(self):
        for case in (AUCTION, QUARTERS):
            day = support.day_of(case.read_bytes(), read_results(case))
            amount = day.problem.euros_text(sum(total.paid for total in trades.totals(day).values()))
            status, out, _ = run_audit(case.read_bytes(), read_results(case))
            wanted = f"by adding: buyers pay {amount} EUR, sellers receive {amount} EUR; "
            self.assertEqual((status, out.decode().count(f"\n{wanted}")), (exits.DONE, 1))

    def test_faults_and_amounts_are_in_the_record(self):
        status, out, _ = run_audit(FAMILY, ACCEPTED.replace(b"K1,accepted,-5000", b"K1,accepted,-250001"), "--json")
        made = json.loads(out)
        self.assertEqual((status, made["checked"]), (exits.DIFFERS, ["results", "sums"]))
        self.assertEqual([fault["kind"] for fault in made["faults"]], ["surplus", "loss", "sum"])
        self.assertEqual([fault["line"] for fault in made["faults"]], [29, 29, 2])
        day = made["day"]
        self.assertEqual([day["paid_eur"], day["received_eur"]], ["780.000", "780.000"])
        self.assertEqual([day["hourly_surplus_eur"], day["block_surplus_eur"]], ["240.000", "-0.001"])
        # One unit more for TOWN, which nobody sells.
        status, out, _ = run_audit(FAMILY, ACCEPTED.replace(b"B1,120", b"B1,121"), "--json")
        made = json.loads(out)
        self.assertEqual([made["day"]["paid_eur"], made["day"]["received_eur"]], ["784.000", "780.000"])
        self.assertEqual([fault["kind"] for fault in made["faults"]], ["executed", "money", "sum"])

    def test_a_day_that_cannot_be_read_has_no_amounts(self):
        made = json.loads(run_audit(FAMILY, ACCEPTED[:-10], "--json")[1])
        self.assertNotIn("paid_eur", made["day"])


if __name__ == "__main__":
    unittest.main()
