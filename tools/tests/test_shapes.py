"""Each public call of the order book, the gate, the texts and the engines is made by a test that runs on each shape of a day."""

import re
import unittest

from support import TOP

CRATES = ["dam_book", "dam_gate", "dam_results", "dam_engines"]
FUNCTION = re.compile(r"^(    )?pub fn (\w+)", re.M)
EXPORTED = re.compile(r"^pub use [\w:]+(?:::\{([^}]*)\}|::(\w+));", re.M)
# Calls that no length of a day, name or number of volumes reaches: on the faults of a run, single prices, reasons, seeds, and the system's
# random bytes. The last one ends a run's writing, and every run on a shape makes it.
SHAPELESS = {"dam_engines": {"fault_line", "fixed_fault_line", "status", "write_text"}, "dam_book": {"at", "drawn", "highest", "lowest", "word"}}


def exported(crate):
    """The names of a crate's library."""
    found = EXPORTED.findall((TOP / f"crates/{crate}/src/lib.rt").read_text(encoding="utf-8"))
    return {name.strip() for many, one in found for name in (many or one).split(",")}


def public_functions(crate):
    """The names of a crate's public functions and methods, without its laws, which only state theorems."""
    names = exported(crate)
    for path in sorted((TOP / f"crates/{crate}/src").glob("*.rt")):
        if not path.stem.endswith(("laws", "market")):
            for indent, name in FUNCTION.findall(path.read_text(encoding="utf-8")):
                if indent or name in names:
                    yield name


class Shapes(unittest.TestCase):
    def test_each_public_call_is_tested_on_each_shape(self):
        paths = (TOP / "tests/rattle").glob("*/src/**/*.rt.test")
        texts = [path.read_text(encoding="utf-8") for path in paths]
        text = "".join(it for it in texts if "shapes()" in it)
        called = set(re.findall(r"\b(\w+)(?:::<[^(]*>)?\(", text))
        for crate in CRATES:
            with self.subTest(crate):
                found = set(public_functions(crate))
                self.assertGreater(len(found), 5)
                self.assertEqual(found - called - SHAPELESS.get(crate, set()), set())


if __name__ == "__main__":
    unittest.main()
