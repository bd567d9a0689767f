"""The reading lists: that the page has the parts of this repository, and which names are followed."""

import subprocess
import sys
import tempfile
import unittest
from pathlib import Path
from unittest import mock

from support import TOOLS, run_tool

from lib.crates import reading_lists, theorem
from lib.crates.specs import Repository
from lib.tool import exits

CRATES = "upper: lower\nlower:\ndam_engines: upper lower\ndam_gate: lower\ndam_c: dam_engines\n"
LIB = {"lower": ["Limits", "Sizes", "Unused"], "upper": ["Rule"], "dam_engines": ["Engine"]}
SPECS = {
    "lower/Limits": "abbrev pub most : ℕ\nmost = 4\n",
    "lower/Sizes": """use Rattle.std.specs.Prelude.{ℕ}
use Rattle.lower.specs.Limits.{most as greatest}
use Rattle.lower.specs.declared.size.Size.TheVariants.{Small}

-- a size
abbrev pub IsSize : ℕ → Type 0
IsSize n = n ≤ greatest

abbrev pub other : ℕ
other = unused_number
""",
    "lower/Unused": "abbrev pub unused_number : ℕ\nunused_number = 1\n",
    "upper/Rule": "use Rattle.lower.specs.Sizes.{IsSize}\n\npub record Rule (n : ℕ) : Type 0 where\n  pub size : IsSize n\n",
    "dam_engines/Engine": "use Rattle.upper.specs.Rule.{Rule}\n\nabbrev pub Printed : ℕ → Type 0\nPrinted n = Rule n\n",
}
ENGINE = """ghost use Rattle.dam_engines.specs.Engine.{Printed};
ghost use Rattle.lower.specs.Unused.{unused_number};

use lower::Size;

/// Runs unused_number.
pub fn NAME(size: Size) -> u8
    ensures done { Printed result × (size ≡ Size.Small) }
{
    unused(unused_number)
}
"""
METHODS = """ghost use Rattle.lower.specs.Sizes.{other};

impl Gate {
    /// Runs.
    pub fn NAME(&self) -> u8
        ensures { result ≡ other }
    {
        1
    }
}
"""
PAGE = """# A page

<!-- the theorem: tools/reading-list --write -->
%s<!-- the end of the theorem -->

## Sizes

<!-- the sizes: tools/reading-list --write -->
%s<!-- the end of the sizes -->
"""
SIZE = "use crate::unit::Unit;\n\npub enum Size {\n    Unit,\n    Small,\n    Large { unit: Unit },\n}\n"
UNIT = """pub struct Unit {
    bytes: Hidden,
}

impl Model for Unit {
    ghost use Rattle.lower.specs.Limits.{most};

    ghost Value = { Below most };
}

pub struct Hidden(u8);
"""


class ReadingList(unittest.TestCase):
    def repository(self, folder):
        def write(path, text):
            file = Path(folder, path)
            file.parent.mkdir(parents=True, exist_ok=True)
            file.write_text(text)

        write("crates.txt", CRATES)
        for crate, modules in LIB.items():
            write(f"crates/{crate}/specs/Lib.antt", "".join(f"pub mod {module}\n" for module in modules))
        for name, text in SPECS.items():
            crate, module = name.split("/")
            write(f"crates/{crate}/specs/{module}.antt", text)
        for function in ("replay", "clear", "day"):
            write(f"crates/dam_engines/src/{function}.rt", ENGINE.replace("NAME", f"run_{function}"))
        write("crates/dam_engines/src/lib.rt", "mod clear;\nmod day;\nmod replay;\n")
        write("crates/lower/src/lib.rt", "mod size;\nmod unit;\n")
        write("crates/lower/src/size.rt", SIZE)
        write("crates/lower/src/unit.rt", UNIT)
        write("crates/dam_gate/src/laws.rt", ENGINE.replace("NAME", "whole_account"))
        write("crates/dam_gate/src/settlement.rt", ENGINE.replace("NAME", "settle"))
        write("crates/dam_gate/src/gate.rt", METHODS.replace("NAME", "call") + METHODS.replace("NAME", "finish"))
        write("crates/dam_gate/src/pass.rt", METHODS.replace("NAME", "look"))
        write("crates/dam_c/src/lib.rt", ENGINE.replace("NAME", "dam_clear").replace("pub fn", 'pub extern "C" fn'))

    def few(self, names):
        """The output of the tool for the few definitions with these names in the repository of this test."""
        first = mock.patch.object(reading_lists, "FIRST", {"run_clear": {"Sizes": names}})
        with first, tempfile.TemporaryDirectory() as folder:
            self.repository(folder)
            return reading_lists.read_few_text(Repository.read(Path(folder)))

    def test_a_few_definitions_are_printed_with_the_sentence_above_them(self):
        self.assertEqual(self.few(["IsSize"]), "-- a size\nabbrev pub IsSize : ℕ → Type 0\nIsSize n = n ≤ greatest\n")

    def test_a_definition_that_the_contract_does_not_reach_is_refused(self):
        with self.assertRaisesRegex(Exception, "^the contract of run_clear doesn't reach other$"):
            self.few(["IsSize", "other"])

    def test_a_definition_without_a_sentence_is_refused(self):
        with self.assertRaisesRegex(Exception, "^crates/lower/specs/Limits.antt says nothing above most$"):
            self.few(["most"])

    def test_the_lines_of_clauses(self):
        text = """pub fn one(n: u8) -> u8
    requires { n < 3 }
    ensures { IfOk result
        (λ done. done ≡ n) }
{
    n
}

trait Two {
    fn two(&self)
        ensures { result };

    fn three(&self);
}

pub fn law()
    ensures { ⊥ → ⊥ }
{}
"""
        self.assertEqual(theorem.count_clause_lines(text), 5)

    def theorem(self, listed, others, is_printed=True):
        """The tool's theorem with these definitions in the repository of this test."""
        whole = mock.patch.object(theorem, "THEOREM", {"run_clear": (is_printed, listed, others)})
        with whole, tempfile.TemporaryDirectory() as folder:
            self.repository(folder)
            return theorem.read_theorem_text(Repository.read(Path(folder)))

    def test_the_theorem_has_the_listed_definitions_and_the_sentences_of_others(self):
        text = self.theorem(["Printed"], ["IsSize"])
        self.assertIn("\n| `IsSize` | a size |\n", text)
        self.assertIn("\nabbrev pub Printed : ℕ → Type 0\nPrinted n = Rule n\n```\n", text)
        self.assertNotIn("IsSize n = n ≤ greatest", text)

    def test_the_theorem_has_the_contract_unless_it_is_left_out(self):
        for is_printed in (True, False):
            with self.subTest(is_printed):
                text = self.theorem(["Printed"], [], is_printed)
                self.assertEqual("pub fn run_clear(size: Size) -> u8" in text, is_printed)

    def test_the_theorem_only_has_definitions_that_the_contract_reaches(self):
        for listed, others in (["IsSize", "other"], []), (["IsSize"], ["other"]):
            with self.subTest(others), self.assertRaisesRegex(Exception, "^the contract of run_clear doesn't reach other$"):
                self.theorem(listed, others)

    def test_a_sentence_that_is_missing_is_named(self):
        with self.assertRaisesRegex(Exception, "^crates/dam_engines/specs/Engine.antt says nothing above Printed$"):
            self.theorem(["IsSize"], ["Printed"])

    def test_the_pages_have_the_lists_of_this_repository(self):
        self.assertEqual(run_tool("reading-list", "--check"), (0, b"", ""))

    def test_lists_that_are_right_are_not_written_again(self):
        def renewed(text, contracts, sizes):
            parts = {"theorem": (lambda _: contracts, str.__eq__), "sizes": (lambda _: sizes, theorem.is_near)}
            return theorem.read_page_and_whether_right(None, text, parts)

        page = PAGE % ("one\n", "| 100 |\n")
        self.assertEqual(renewed(page, "one\n", "| 100 |\n"), (page, True))
        self.assertEqual(renewed(page, "one\n", "| 105 |\n"), (page, True))
        self.assertEqual(renewed(page, "two\n", "| 105 |\n"), (PAGE % ("two\n", "| 100 |\n"), False))
        self.assertEqual(renewed(page, "one\n", "| 150 |\n"), (PAGE % ("one\n", "| 150 |\n"), False))

    def test_the_page_of_definitions(self):
        """Every definition of a module needs a sentence, also one that the page leaves out."""
        with tempfile.TemporaryDirectory() as folder:
            self.repository(folder)
            sizes = Path(folder, "crates/lower/specs/Sizes.antt")
            for crate, names in LIB.items():
                for name in names:
                    path = Path(folder, f"crates/{crate}/specs/{name}.antt")
                    text = path.read_text().replace("abbrev", "-- something\nabbrev").replace("pub record", "-- a rule\npub record")
                    path.write_text("-- About it.\n" + text.replace("-- a size\n-- something", "-- a size"))
            page = reading_lists.read_definitions_text(Repository.read(Path(folder)))
            self.assertIn("\n## `lower/specs/Sizes.antt`\n\nAbout it.\n\n- `IsSize`: a size\n- `other`: something\n\n", page)
            self.assertIn("## `upper/specs/Rule.antt`\n\nAbout it.\n\n- `Rule`: a rule\n", page)
            sizes.write_text(sizes.read_text() + "\nabbrev pub spare : ℕ\nspare = 1\n")
            with self.assertRaisesRegex(Exception, "^crates/lower/specs/Sizes.antt says nothing above spare$"):
                reading_lists.read_definitions_text(Repository.read(Path(folder)))

    def test_sizes_may_differ_by_a_tenth(self):
        is_near = theorem.is_near
        self.assertTrue(is_near("| `a_1` | 1,000 | 0 |\n", "| `a_1` | 1,100 | 0 |\n"))
        self.assertFalse(is_near("| 1,000 |", "| 1,200 |"))
        self.assertFalse(is_near("| 0 |", "| 1 |"))
        self.assertFalse(is_near("| b | 1 |", "| c | 1 |"))

    def test_names_are_followed_to_what_they_stand_on(self):
        with tempfile.TemporaryDirectory() as folder:
            self.repository(folder)
            status, printed, errors = run_tool("reading-list", "--top", folder, "--names", "run_day")
            self.assertEqual((status, errors), (0, ""))
            self.assertEqual(
                set(printed.decode().splitlines()),
                {
                    "crates/dam_engines/specs/Engine.antt: Printed",
                    "crates/upper/specs/Rule.antt: Rule",
                    "crates/lower/specs/Sizes.antt: IsSize",
                    "crates/lower/specs/Limits.antt: most",
                    "crates/lower/src/size.rt: Size",
                    "crates/lower/src/unit.rt: Unit",
                },
            )

    def test_each_function_adds_to_those_before_it(self):
        with tempfile.TemporaryDirectory() as folder:
            self.repository(folder)
            _, printed, _ = run_tool("reading-list", "--top", folder)
            lines = printed.decode().splitlines()
            self.assertEqual(lines[0], "1. For `run_replay` (`dam_engines`):")
            self.assertIn("   - `lower/specs/`: `Limits`, `Sizes` (`IsSize`)", lines)
            at = lines.index("2. For `run_clear` (`dam_engines`):")
            self.assertEqual(
                lines[at:],
                [
                    "2. For `run_clear` (`dam_engines`):",
                    "   - nothing more",
                    "3. For `run_day` (`dam_engines`):",
                    "   - nothing more",
                    "4. For `whole_account` (`dam_gate`):",
                    "   - nothing more",
                    "5. For `settle` (`dam_gate`):",
                    "   - nothing more",
                    "6. For `Gate::call` (`dam_gate`):",
                    "   - `lower/specs/`: `Sizes` (`other`)",
                    "7. For `Pass::look` (`dam_gate`):",
                    "   - nothing more",
                    "8. For `Gate::finish` (`dam_gate`):",
                    "   - nothing more",
                    "9. For `dam_clear` (`dam_c`):",
                    "   - nothing more",
                ],
            )

    def test_a_name_without_a_definition_is_refused(self):
        with tempfile.TemporaryDirectory() as folder:
            self.repository(folder)
            Path(folder, "crates/lower/specs/Limits.antt").write_text("abbrev pub least : ℕ\nleast = 1\n")
            status, printed, errors = run_tool("reading-list", "--top", folder)
            self.assertEqual((status, printed), (3, b""))
            self.assertIn("lower/specs/Limits.antt has no definition most", errors)

    def test_files_that_cannot_be_read_or_written(self):
        with tempfile.TemporaryDirectory() as folder:
            said = f"reading-list: {folder}/crates.txt can't be read: No such file or directory\n"
            self.assertEqual(run_tool("reading-list", "--top", folder), (exits.NO_INPUT, b"", said))
        with open("/dev/full", "wb") as full:
            ran = subprocess.run([sys.executable, TOOLS / "reading-list"], stdout=full, stderr=subprocess.PIPE, text=True)
        said = "reading-list: standard output can't be written: No space left on device\n"
        self.assertEqual((ran.returncode, ran.stderr), (exits.NO_INPUT, said))


if __name__ == "__main__":
    unittest.main()
