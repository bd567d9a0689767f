"""How an edit is read and applied, and which bodies it changes."""

import os
import tempfile
import unittest

from shared.edit_files import UnfitEdit, batches_of, read_and_edit, read_edits, read_edits_that_tests_find, write_text

LIB = """\
const MOST: u64 = 5;

fn low() -> u64 {
    MOST - 4
}

fn high() -> u64 {
    MOST - 1
}
"""


def edit(old, new, path="src/lib.rt"):
    return f"file: {path}\nold: {old}\nnew: {new}\n"


class Edits(unittest.TestCase):
    def setUp(self):
        room = tempfile.TemporaryDirectory(prefix="edits-")
        self.addCleanup(room.cleanup)
        self.crate = room.name
        for folder in ("src", "must-fail", "wrong-bodies"):
            os.mkdir(f"{self.crate}/{folder}")
        write_text(f"{self.crate}/src/lib.rt", LIB)

    def made(self, text):
        return read_and_edit(text, self.crate)["src/lib.rt"]

    def assert_unfit(self, text, why):
        with self.assertRaises(UnfitEdit) as fault:
            self.made(text)
        self.assertIn(why, str(fault.exception))

    def test_the_new_text_replaces_the_old(self):
        self.assertEqual(self.made(edit("    MOST - 4", "    MOST - 3")), LIB.replace("- 4", "- 3"))
        self.assertEqual(self.made("file: src/lib.rt\nold:  - 4\nnew:\n"), LIB.replace(" - 4", ""))

    def test_a_pair_applies_after_those_before(self):
        self.assertEqual(self.made(edit("MOST - 4", "LEAST") + edit("LEAST", "1")), LIB.replace("MOST - 4", "1"))

    def test_an_edit_that_cannot_be_applied(self):
        self.assert_unfit(edit("MOST - 5", "0"), "stands 0 times in src/lib.rt")
        self.assert_unfit(edit("MOST", "0"), "stands 3 times in src/lib.rt")
        self.assert_unfit(edit("MOST - 4", "MOST - 4"), "leaves src/lib.rt as it was")
        self.assert_unfit(edit("x", "y", "src/none.rt"), "there is no file src/none.rt")
        self.assert_unfit(edit("x", "y", "src/../../secret"), "names no file")
        self.assert_unfit(edit("x", "y", "Cargo.toml"), "names no file")
        self.assert_unfit("old: MOST - 4\nnew: 1\n", "before any 'file:'")
        self.assert_unfit("file: src/lib.rt\nnew: 1\n", "before any 'file:' or 'old:'")
        self.assert_unfit("file: src/lib.rt\nold: MOST - 4\n", "no 'new:' line")
        self.assert_unfit("file: src/lib.rt\nold: MOST - 4\n1\n", "begins with none")
        self.assert_unfit("", "it has no 'file:'")

    def test_edits_of_both_folders_are_sorted(self):
        write_text(f"{self.crate}/must-fail/low.edit", edit("MOST - 4", "2"))
        write_text(f"{self.crate}/wrong-bodies/high.edit", edit("MOST - 1", "MOST"))
        write_text(f"{self.crate}/wrong-bodies/READ.md", "of no edit")
        found = read_edits(self.crate, ("must-fail", "wrong-bodies"))
        self.assertEqual([it.name for it in found], ["high", "low"])
        self.assertEqual([it.name for it in read_edits(self.crate, ("wrong-bodies",))], ["high"])

    def test_edits_of_one_file_are_sorted(self):
        write_text(f"{self.crate}/src/above.rt", LIB)
        low, high = edit("MOST - 4", "2"), edit("MOST - 1", "MOST")
        above = edit("MOST - 4", "2", "src/above.rt")
        good = f"name: z\n{above}name: high\n{high}name: low\n{low}"
        turned = f"name: low\n{low}name: high\n{high}"
        for text, misplaced in (good, {}), (turned, {"high": "low"}), (f"{good}name: a\n{above}", {"a": "low"}):
            write_text(f"{self.crate}/wrong-bodies/all.edit", text)
            faults = {it.name: it.fault for it in read_edits(self.crate, ("wrong-bodies",)) if it.fault}
            wanted = {name: f"it stands after {other}, and not in the order of files and names" for name, other in misplaced.items()}
            self.assertEqual(faults, wanted)

    def test_files_that_are_not_tried_are_faults(self):
        write_text(f"{self.crate}/must-fail/low.edit", edit("MOST - 4", "2"))
        write_text(f"{self.crate}/wrong-bodies/low.edit", edit("MOST - 4", "3"))
        write_text(f"{self.crate}/wrong-bodies/other.edti", edit("MOST - 4", "4"))
        first, second, third = read_edits(self.crate, ("must-fail", "wrong-bodies"))
        self.assertIsNone(first.fault)
        self.assertEqual(second.fault, "the crate has another edit of this name, must-fail/low.edit")
        self.assertEqual(third.fault, "its name does not end in .edit")

    def test_a_file_of_several_edits(self):
        low, high = edit("MOST - 4", "2"), edit("MOST - 1", "MOST")
        write_text(f"{self.crate}/wrong-bodies/all.edit", f"name: high\n{high}\nname: low\n{low}")
        write_text(f"{self.crate}/wrong-bodies/alone.edit", edit("MOST - 4", "3"))
        alone, highest, lowest = read_edits(self.crate, ("must-fail", "wrong-bodies"))
        self.assertEqual([it.name for it in (alone, highest, lowest)], ["alone", "high", "low"])
        self.assertEqual(lowest.texts, read_and_edit(low, self.crate))
        self.assertEqual(highest.texts, read_and_edit(high, self.crate))
        self.assertEqual(alone.texts, read_and_edit(edit("MOST - 4", "3"), self.crate))
        places = [(it.place, it.fault) for it in (alone, highest, lowest)]
        self.assertEqual(places, [("wrong-bodies/alone.edit", None), ("wrong-bodies/all.edit:1", None), ("wrong-bodies/all.edit:6", None)])

    def test_faults_of_a_file_of_several_edits(self):
        body = edit("MOST - 4", "2")
        text = f"{body}name: b\n{body}name: b\n{body}name: c\nname:\n{body}name: d\n{edit('no', 'x')}"
        write_text(f"{self.crate}/wrong-bodies/all.edit", text)
        found = [(it.name, it.place.partition(":")[2], it.fault) for it in read_edits(self.crate, ("wrong-bodies",))]
        self.assertEqual(found, [
            ("", "13", "a 'name:' line names nothing"),
            ("all", "", "a line stands before the first 'name:' line"),
            ("b", "4", None),
            ("b", "8", "the crate has another edit of this name, wrong-bodies/all.edit:4"),
            ("c", "12", "it has no 'file:', 'old:' and 'new:' line"),
            ("d", "17", "an 'old:' text stands 0 times in src/lib.rt, and not once: no"),
        ])

    def test_must_fail_edits_have_no_name_line(self):
        write_text(f"{self.crate}/must-fail/low.edit", "name: low\n" + edit("MOST - 4", "2"))
        (found,) = read_edits(self.crate, ("must-fail",))
        self.assertEqual(found.fault, "a line begins with none of 'file:', 'old:' and 'new:': name: low")

    def test_what_an_edit_changes(self):
        write_text(f"{self.crate}/wrong-bodies/a_body.edit", edit("MOST - 4", "2"))
        write_text(f"{self.crate}/wrong-bodies/b_constant.edit", edit("= 5", "= 6"))
        write_text(f"{self.crate}/wrong-bodies/c_both.edit", edit("= 5", "= 6") + edit("MOST - 4", "2"))
        write_text(f"{self.crate}/wrong-bodies/d_two.edit", edit("MOST - 4", "2") + edit("MOST - 1", "6"))
        body, constant, both, two = read_edits(self.crate, ("wrong-bodies",))
        self.assertEqual(body.read_new_bodies(), {("src/lib.rt", 0): "{\n    2\n}"})
        self.assertEqual((constant.read_new_bodies(), both.read_new_bodies()), ({}, {}))
        self.assertEqual(two.read_new_bodies(), {("src/lib.rt", 0): "{\n    2\n}", ("src/lib.rt", 1): "{\n    6\n}"})
        self.assertEqual(batches_of([body, two]), [[body], [two]])

    def test_a_batch_has_each_function_once(self):
        for name, old, new in [("a", "MOST - 4", "2"), ("b", "MOST - 4", "3"), ("c", "MOST - 1", "4")]:
            write_text(f"{self.crate}/wrong-bodies/{name}.edit", edit(old, new))
        first, second, third = read_edits(self.crate, ("wrong-bodies",))
        self.assertEqual(batches_of([first, second, third]), [[first, third], [second]])


class EditsThatTestsFind(unittest.TestCase):
    GOOD = "name: one\ntest: b_tests low::is_1\n" + edit("MOST - 4", "MOST - 3", "crates/a/src/lib.rt")

    def write_and_read(self, text):
        with tempfile.TemporaryDirectory(prefix="edits-") as top:
            os.makedirs(f"{top}/crates/a/src")
            write_text(f"{top}/crates/a/src/lib.rt", LIB)
            os.makedirs(f"{top}/b_tests/src")
            write_text(f"{top}/b_tests/src/low.rt.test", "/// It is 1.\n#[test]\nfn is_1() {\n}\n\nfn is_2() {\n}\n")
            write_text(f"{top}/wrong-bodies.edit", text)
            return read_edits_that_tests_find(f"{top}/wrong-bodies.edit", top)

    def test_one_and_its_test(self):
        ((found, crate, test),) = self.write_and_read(self.GOOD)
        self.assertIsNone(found.fault)
        self.assertEqual(found.texts, {"src/lib.rt": LIB.replace("MOST - 4", "MOST - 3")})
        self.assertEqual((found.name, found.place, crate, test), ("one", "wrong-bodies.edit:1", "b_tests", "low::is_1"))

    def test_a_test_that_does_not_exist(self):
        for test in "b_tests low::is_3", "b_tests low::is_2", "b_tests is_1", "b_tests high::is_1", "a low::is_1":
            with self.subTest(test=test):
                ((found, *_),) = self.write_and_read(self.GOOD.replace("b_tests low::is_1", test))
                self.assertEqual((found.fault, found.texts), (f"there is no test {test}", {}))

    def test_faults(self):
        other = self.GOOD.replace("one", "other")
        for text, why in [
            (self.GOOD + self.GOOD, "it has no name, or another's"),
            ("x\n" + self.GOOD, "it has no name, or another's"),
            (self.GOOD + other.replace("test: b_tests low::is_1\n", ""), "it needs one 'test:' line, and 'file:' lines of one crate"),
            (
                self.GOOD + other + edit("MOST - 1", "MOST", "crates/b/src/lib.rt"),
                "it needs one 'test:' line, and 'file:' lines of one crate",
            ),
            (self.GOOD + other.replace("MOST - 4", "MOST - 5"), "an 'old:' text stands 0 times in src/lib.rt, and not once: MOST - 5"),
        ]:
            with self.subTest(text=text):
                self.assertEqual({it.fault for it, *_ in self.write_and_read(text)} - {None}, {why})


if __name__ == "__main__":
    unittest.main()
