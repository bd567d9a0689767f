"""The reading of a check's output, by lines that checks printed."""

import unittest

from wrong_bodies.report import CheckReport, function_of

REFUSED = """\
checked toy::stack::Stack::low, 11 of 28
./proofs/stack/Stack/low/Answers.antt:8:15: error: `returns`: computed as far as they go, the two types differ only where one has `c.args.units` (expected) and the other has `1` (found)
  expected type `goal.the-asks-returns g.row.A g.A.laws`
./proofs/stack/+split/Answers.antt:7:140: error: `returns-clause-rises`: `search`: no proof of `height_of a.0.now.price`
./proofs/stack/Stack/units/Answers.antt:16:10: note: this `elim` is on a term, not a variable
./proofs/stack/Stack/all/Answers.antt:9:33: error: `returns-then`: `c.holding` is not in scope
./proofs/stack/Stack/all/Answers.antt:30:5: error: 2 declarations that depend on `returns-then`, which was rejected, were not checked: overflow_add-result, returns
struct toy::row::Row: proved
fn toy::row::height: proved
note: src/stack.rt:48:13: it is not proved that what the function ensures holds when it returns (`returns-then-eq`); the facts known there allow values at which this goal is false
note: src/stack.rt:44:5: it is not proved that what the function ensures holds when it returns (`returns`); `search` gave up at one of its limits
note: to see how far a `search` got, write `search rules` in place of that hole in the function's `Answers.antt`, and check again
fn toy::stack::Demand::of_step: no proof: expected answers in ./proofs/stack/Demand/of_step/Answers.antt; `search` did not prove `returns-then-eq`, `returns`
fn toy::stack::Demand::of: no proof: it calls `toy::stack::Demand::of_step`, which is not proved
fn toy::stack::fn::rising::sort_unstable_by_key+FnMut::call_mut: proved where its callers give what it asks
note: src/stack.rt:77:20: it is not proved that what the function ensures holds when it returns (`returns`); `search` gave up at one of its limits
fn toy::stack::fn::Stack::has_unit::any: no proof: `search` did not prove `returns`
fn toy::stack::Stack::low: not proved; it calls `toy::stack::Demand::of`, which is not proved
fn toy::stack::Stack::all: not proved
fn toy::stack::split: not proved
crate toy: modules loaded=249 checked=0
logic=not-proved
"""

PROVED = """\
fn dam_plan::plan::Plan::cut: proved
crate dam_plan: modules loaded=249 checked=0
logic=proved functions=6 sum=dac8208d650f15bf native=nat,char,string logic-built=trusted
"""

GOAL = "note: src/stack.rt:90:1: it is not proved that what the function ensures holds when it returns (`returns`)"

ILL = "src/plan.rt:73:9: error[unknown-field]: no field `cuts` on type `Plan`: help: available fields are: `workers`, `cut`, `nodes`\n"


class Reports(unittest.TestCase):
    def test_how_a_check_ends(self):
        ends = [(it.is_proved, it.is_refused) for it in map(CheckReport, (PROVED, REFUSED, ILL, ""))]
        self.assertEqual(ends, [(True, False), (False, True), (False, False), (False, False)])

    def test_functions_with_goals_of_their_own(self):
        refused = CheckReport(REFUSED).refusals()
        self.assertEqual(
            {name: why.split(": ")[0] for name, why in refused.items()},
            {
                "toy::stack::Demand::of_step": "src/stack.rt:48:13",
                "toy::stack::Stack::has_unit": "src/stack.rt:77:20",
                "toy::stack::Stack::low": "proofs/stack/Stack/low/Answers.antt:8",
                "toy::stack::split": "proofs/stack/+split/Answers.antt:7",
            },
        )

    def test_a_caller_is_not_refused_for_itself(self):
        self.assertNotIn("toy::stack::Demand::of", CheckReport(REFUSED).refusals())

    def test_a_name_that_went_is_no_refusal(self):
        self.assertNotIn("toy::stack::Stack::all", CheckReport(REFUSED).refusals())

    def test_a_missing_name_comes_with_the_goal(self):
        refused = CheckReport(REFUSED.replace("fn toy::stack::Stack::all", f"{GOAL}\nfn toy::stack::Stack::all")).refusals()
        self.assertTrue(refused["toy::stack::Stack::all"].endswith("(`returns`) (and a proof of the function cites a name that went)"))
        self.assertNotIn("went", refused["toy::stack::Stack::low"])

    def test_a_loop_without_an_end_is_a_refusal(self):
        line = "fn toy::waits: no proof: expected a measure in ./proofs/waits/Invariants.antt\nlogic=not-proved\n"
        self.assertEqual([*CheckReport(line).refusals()], ["toy::waits"])
        self.assertTrue(CheckReport(line).refusals()["toy::waits"].startswith("no goal, but a loop without a measure: expected a measure"))

    def test_a_proved_crate_has_no_refusal(self):
        self.assertEqual(CheckReport(PROVED).refusals(), {})

    def test_errors_have_their_file_and_line(self):
        (error,) = CheckReport(ILL).errors
        self.assertEqual((error.path, error.line), ("src/plan.rt", 73))
        self.assertEqual(len(CheckReport(REFUSED).errors), 4)

    def test_a_text_that_the_check_cannot_read(self):
        self.assertIsNone(CheckReport(REFUSED).error_of_reading_or_none())
        error = CheckReport("specs/Hour.antt:3:9: error: `steps` is not in scope\nlogic=not-proved\n").error_of_reading_or_none()
        self.assertEqual(str(error), "specs/Hour.antt:3: `steps` is not in scope")

    def test_a_closure_belongs_to_its_function(self):
        for name in ("a::b::T::f", "a::b::fn::T::f::any", "a::b::fn::T::f::any+FnMut::call_mut", "a::b::fn::T::f::map+FnOnce::call_once"):
            self.assertEqual(function_of(name), "a::b::T::f")


if __name__ == "__main__":
    unittest.main()
