"""Where the bodies of functions lie, and the names under which a check lists them."""

import unittest

from shared.rattle_source import functions_of, homes_of, leaders_of, listed_name, parts_outside_functions

STEP = """\
use crate::hour::Hour;

/// A brace in a comment { counts for nothing.
#[derive(Clone, Copy)]
pub struct Step<A: Allocator> {
    pub volume: u64,
}

impl<A: Allocator> Model for Step<A> {
    invariant { volume ≤ most }
}

impl<A: Allocator> Step<A> {
    pub fn of(hour: &Hour<A>, take: impl Fn(u64) -> u64) -> Option<Step<A>>
        requires { hour.is_open }
        ensures some { result.is_some ≡ hour.now }
        measure { hour.len }
    {
        fn inner() {}
        let mark = '{';
        hour.find(|it| { it.text != "}" && it.mark != '}' }).map(Step::new)
    }

    fn len(&self) -> u64 { self.volume }
}

impl<const N: usize> Hash for Text<N> {
    fn hash<H: Hasher>(&self, state: &mut H) { /* } */ }
}

impl<T: Drop> From<AllocFailed<T>> for fault::DayFault
where
    T: Send,
{
    fn from(it: AllocFailed<T>) -> Self { Self::Memory(it) }
}

pub trait Turnstile {
    fn enter(&self) -> bool ensures { result ≡ free };
    fn leave(&self) {}
}

pub const fn most() -> [u8; 2] { [1, 2] }
"""


class Bodies(unittest.TestCase):
    def test_functions_are_found_by_their_names(self):
        names = [it.name for it in functions_of(STEP)]
        self.assertEqual(names, ["Step::of", "Step::len", "TextHash::hash", "DayFaultFromAllocFailed::from", "Turnstile::leave", "most"])

    def test_a_body_lies_between_its_braces(self):
        bodies = {it.name: STEP[it.begins : it.ends] for it in functions_of(STEP)}
        self.assertEqual(bodies["Step::len"], "{ self.volume }")
        self.assertEqual(bodies["most"], "{ [1, 2] }")
        self.assertTrue(bodies["Step::of"].startswith("{\n        fn inner() {}"))
        self.assertTrue(bodies["Step::of"].endswith(".map(Step::new)\n    }"))

    def test_clauses_are_outside_the_bodies(self):
        parts = parts_outside_functions(STEP, functions_of(STEP))
        self.assertEqual(len(parts), 7)
        self.assertTrue(parts[0].endswith("measure { hour.len }\n    "))
        self.assertEqual(parts[6], "\n")

    def test_the_named_function_leads_its_cycle(self):
        text = "fn walk() {}\nimpl Tree {\n#[cycle(visit)]\nfn visit() {}\n#[cycle(visit)]\n#[inline]\npub fn go() {}\n}\nfn end() {}\n"
        leaders = [it.name for it in leaders_of(text, functions_of(text))]
        self.assertEqual(leaders, ["walk", "Tree::visit", "Tree::visit", "end"])

    def test_a_file_without_functions(self):
        self.assertEqual(functions_of("mod step;\npub use step::Step;\n"), [])
        self.assertEqual(functions_of(""), [])


IMPLS = {
    "impl Step": "Step::go",
    "impl<'a, F: Fn(u32) -> u32, const N: usize> kind::Step<'a, F, N>": "Step::go",
    "impl<T: Drop> From<AllocFailed<T>> for DayFault\nwhere\n    T: Send,\n": "DayFaultFromAllocFailed::go",
    "impl<T> Named<(), u64> for Holder<Near<T>>": "HolderNearNamedUnitU64::go",
    "impl<'a> Life<'a> for Near<u32>": "NearU32Life::go",
    "pub trait Order<T>: Send": "Order::go",
    "mod plain": "plain::go",
}
OWNED = "pub struct Hour {\n    step: Step,\n}\n\nimpl Hour {\n    fn len(&self) -> u64 { 0 }\n}\n"
MORE = (
    "use crate::hour::Hour;\nimpl Hour {\n    fn len(&self) -> u64 { 0 }\n}\n"
    "impl Len for Hour {\n    fn more(&self) {}\n}\nfn free() {}\n"
)


class Names(unittest.TestCase):
    def test_owners_are_named_type_then_trait(self):
        for head, name in IMPLS.items():
            with self.subTest(head):
                (function,) = functions_of(head + " {\n    fn go() {}\n}\n")
                self.assertEqual(function.name, name)

    def test_a_name_has_the_modules_of_its_file(self):
        (function,) = functions_of("impl Hour {\n    fn len(&self) -> u64 { 0 }\n}\n")
        self.assertEqual(listed_name("dam_hour", "src/hour.rt", function, {}), "dam_hour::hour::Hour::len")
        self.assertEqual(listed_name("dam_hour", "src/lib.rt", function, {}), "dam_hour::Hour::len")
        self.assertEqual(listed_name("dam_hour", "src/plain/mod.rt", function, {}), "dam_hour::plain::Hour::len")
        self.assertEqual(listed_name("dam_hour", "src/plain/steps.rt", function, {}), "dam_hour::plain::steps::Hour::len")

    def test_methods_have_the_modules_of_a_type(self):
        homes = homes_of({"src/hour.rt": OWNED, "src/plain/more.rt": MORE})
        names = [listed_name("dam_hour", "src/plain/more.rt", it, homes) for it in functions_of(MORE)]
        self.assertEqual(names, ["dam_hour::hour::Hour::len", "dam_hour::plain::more::HourLen::more", "dam_hour::plain::more::free"])

    def test_the_home_of_a_type_defines_it(self):
        texts = {
            "src/one.rt": "#[derive(Drop)]\npub(crate) struct Row<A> {\n}\n// struct Comment {\n    struct Inner;\nenum Way {}\n",
            "src/two.rt": "pub struct Twice(u64);\nuse crate::one::Row;\n",
            "src/three.rt": "struct Twice;\npub trait Walk {}\n",
        }
        self.assertEqual(homes_of(texts), {"Row": "src/one.rt", "Way": "src/one.rt"})


if __name__ == "__main__":
    unittest.main()
