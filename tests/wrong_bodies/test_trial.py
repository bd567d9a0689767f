"""The trial of wrong bodies, with a stand-in for the check."""

import contextlib
import io
import os
import re
import tempfile
import unittest

from shared.edit_files import read_edits, read_text, write_text
from shared.rattle_source import functions_of
from wrong_bodies.report import CheckReport
from wrong_bodies.trial import NotProved, Trial

NUMBERS = ("one", "two", "three", "four")
CYCLE = NUMBERS[:2]
LIB = "".join(f"fn {it}() -> u64 {{\n    right()\n}}\n\n" for it in NUMBERS)
REFUSED = "note: src/lib.rt:{line}:5: it is not proved that what the function ensures holds when it returns (`returns`)"
ILL = "src/lib.rt:{line}:5: error[no-such-function]: there is no function `ill`"
GONE = "proofs/{name}/Answers.antt:1:1: error: `right` is not in scope"


class StandInTrial(Trial):
    """A trial whose check refuses a function with `wrong` in its body, and lists the methods of `Tree` under the module `tree`."""

    def run_and_print_check(self, what):
        self.checks += 1
        self.tried = [*getattr(self, "tried", []), what]
        os.makedirs(self.out, exist_ok=True)
        text = read_text(f"{self.folder}/src/lib.rt")
        lines, ills, gone = [], [], []
        for it in functions_of(text):
            body, line = text[it.begins : it.ends], text[: it.begins].count("\n") + 2
            said = "proved"
            if "ill()" in body:
                ills.append(ILL.format(line=line))
            if "gone()" in body:
                gone.append(GONE.format(name=it.name))
                said = "not proved"
            if "wrong()" in (body if it.name not in CYCLE or not text.startswith("#[cycle") else text):
                lines.append(REFUSED.format(line=line))
                said = "no proof: `search` did not prove `returns`"
            lines.append(f"fn toy::{'tree::' if it.name.startswith('Tree::') else ''}{it.name}: {said}")
        is_proved = all(re.search(r": (proved)$", it) for it in lines)
        end = "logic=proved functions=4" if is_proved else "logic=not-proved"
        return CheckReport("\n".join(ills or [*gone, *lines, end]))


class Trials(unittest.TestCase):
    def setUp(self):
        room = tempfile.TemporaryDirectory(prefix="trial-")
        self.addCleanup(room.cleanup)
        self.copy, self.crate = room.name, f"{room.name}/crates/toy"
        os.makedirs(f"{self.crate}/src")
        os.mkdir(f"{self.crate}/wrong-bodies")
        write_text(f"{self.crate}/src/lib.rt", LIB)

    def write_edit(self, name, **bodies):
        pairs = [f"old: fn {it}() -> u64 {{\nnew: fn {it}() -> u64 {{ {body}();\n" for it, body in bodies.items()]
        write_text(f"{self.crate}/wrong-bodies/{name}.edit", "file: src/lib.rt\n" + "".join(pairs))

    def try_all_edits(self, text=LIB, **how):
        with contextlib.redirect_stdout(io.StringIO()), StandInTrial(self.copy, "toy") as self.trial:
            results = list(self.trial.try_all(read_edits(self.crate, ("wrong-bodies",)), **how))
        self.assertEqual(read_text(f"{self.crate}/src/lib.rt"), text)
        self.assertFalse(os.path.exists(self.trial.aside))
        return {name: (is_refused, why.split(":")[0]) for name, is_refused, why in results}

    def test_one_check_refuses_many(self):
        for it in NUMBERS:
            self.write_edit(it, **{it: "wrong"})
        self.assertEqual(set(self.try_all_edits().values()), {(True, "refused")})
        self.assertEqual(self.trial.tried, ["as it stands", "4 wrong bodies at once"])

    def test_each_alone(self):
        for it in NUMBERS:
            self.write_edit(it, **{it: "wrong"})
        self.assertEqual(set(self.try_all_edits(alone=True).values()), {(True, "refused")})
        self.assertEqual(self.trial.tried, ["as it stands", "four", "one", "three", "two"])

    def test_a_body_that_passes_is_tried_alone(self):
        self.write_edit("taken", one="right")
        self.write_edit("refused", two="wrong")
        self.assertEqual(self.try_all_edits(), {"refused": (True, "refused"), "taken": (False, "NOT REFUSED")})
        self.assertEqual(self.trial.tried, ["as it stands", "2 wrong bodies at once", "taken"])

    def test_a_name_that_went_is_a_bad_edit(self):
        self.write_edit("gone", one="gone")
        self.write_edit("refused", two="wrong")
        self.assertEqual(self.try_all_edits(), {"refused": (True, "refused"), "gone": (False, "BAD EDIT")})

    def test_an_ill_edit_leaves_the_batch(self):
        self.write_edit("a", one="wrong")
        self.write_edit("ill", two="ill")
        self.write_edit("z", three="wrong")
        self.assertEqual(self.try_all_edits(), {"a": (True, "refused"), "z": (True, "refused"), "ill": (False, "BAD EDIT")})
        self.assertEqual(self.trial.tried[1:], ["3 wrong bodies at once", "2 wrong bodies at once", "ill"])

    def test_edits_of_one_function_are_apart(self):
        self.write_edit("a", one="wrong")
        self.write_edit("b", one="right")
        self.assertEqual(self.try_all_edits(), {"a": (True, "refused"), "b": (False, "NOT REFUSED")})
        self.assertEqual(self.trial.batches, 2)

    def test_either_function_refuses_an_edit(self):
        self.write_edit("both", one="right", two="wrong")
        self.assertEqual(self.try_all_edits(), {"both": (True, "refused")})

    def test_a_cycle_is_refused_as_a_whole(self):
        cycle = LIB.replace("fn one", "#[cycle(one)]\nfn one").replace("fn two", "#[cycle(one)]\nfn two")
        write_text(f"{self.crate}/src/lib.rt", cycle)
        self.write_edit("a", one="wrong")
        self.assertEqual(self.try_all_edits(cycle), {"a": (True, "refused")})
        self.assertEqual(self.trial.tried, ["as it stands", "1 wrong bodies at once"])
        self.write_edit("b", two="wrong")
        self.assertEqual(self.try_all_edits(cycle), {"a": (True, "refused"), "b": (True, "refused")})
        self.assertEqual(self.trial.tried[1:], ["2 wrong bodies at once", "a", "b"])

    def test_a_method_of_a_type_of_another_file(self):
        text = LIB.replace("fn one() -> u64 {\n    right()\n}", "impl Tree {\nfn one() -> u64 {\n    right()\n}\n}")
        write_text(f"{self.crate}/src/lib.rt", text)
        write_text(f"{self.crate}/src/tree.rt", "pub struct Tree {\n    depth: u64,\n}\n")
        self.write_edit("method", one="wrong")
        self.write_edit("other", two="wrong")
        self.assertEqual(self.try_all_edits(text), {"method": (True, "refused"), "other": (True, "refused")})
        self.assertEqual(self.trial.tried, ["as it stands", "2 wrong bodies at once"])

    def test_an_edit_that_cannot_be_applied(self):
        self.write_edit("none", five="wrong")
        self.assertEqual(self.try_all_edits(), {"none": (False, "BAD EDIT")})
        self.assertEqual(self.trial.tried, ["as it stands"])

    def test_a_crate_without_a_proof(self):
        write_text(f"{self.crate}/src/lib.rt", LIB.replace("right", "wrong", 1))
        with self.assertRaises(NotProved), contextlib.redirect_stdout(io.StringIO()), StandInTrial(self.copy, "toy"):
            self.fail("it was tried")


if __name__ == "__main__":
    unittest.main()
