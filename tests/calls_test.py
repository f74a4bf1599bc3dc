#!/usr/bin/env python3
"""Tests of calls.py: what it reads of sources, and which calls it misses in a small repository."""

from __future__ import annotations

import sys
import tempfile
import unittest
from pathlib import Path

sys.dont_write_bytecode = True
import calls  # noqa: E402

LIBRARY = '''
//! A library. pub fn in_a_comment() -> NoMemory {}
mod inner;
pub use inner::{Error, Kept, Maker, Tool as Renamed, free, plain};
pub use low::{below};
pub mod methods { pub use crate::inner::Handed; }
'''
INNER = '''
use std::alloc::AllocError;
pub type Out = AllocError;
pub enum Error { NoMemory, Other(u8) }
pub struct Kept<T = Empty> { text: String }
pub(crate) fn hidden() -> Error { "a } text" }
pub fn plain() -> bool { true }
pub fn free<F: Fn(u8) -> bool>(
    f: F,
) -> Result<(), Out>
where
    F: Drop,
    requires few { 1 < 2 }
    ensures { IfOk result (λ r. { r }) }
{
    Ok(())
}
impl<T: Drop> Kept<T> {
    pub fn copy(&self) -> Result<Kept<T>, Error> { Err(Error::NoMemory) }
    pub fn begin() -> Result<Self, Error> { Err(Error::NoMemory) }
    fn own(&self) -> Error { Error::NoMemory }
}
impl Maker for Kept { fn make(self) -> Result<u8, Error> { Ok('\\'' as u8) } }
pub trait Maker {
    ghost meant: { Self → ℕ };
    fn make(self) -> Result<u8, Error>
        ensures { OnOk result (meant self) };
    final fn copy(self) -> Result<u8, Error> { Handed::copy_all(self) }
}
pub trait Handed { fn copy_all(self) -> Result<u8, Error>; }
'''
LOW = '''
pub fn below(raw: &str) -> Result<(), AllocError> { r#"a " and a { "# }
'''
TESTS = '''
use top::{%s};
#[test]
fn every_call_once() -> Result<(), Fail> { %s }
'''


class Reading(unittest.TestCase):
    def test_tokens(self) -> None:
        self.assertEqual(calls.tokens_of("a::b('x', '\\n', b\"{\", 'life) // }\n/* { */ -> r#\"\"\"#"),
                         ["a", "::", "b", "(", '""', ",", '""', ",", '""', ",", "'life", ")", "->", '""'])

    def test_results(self) -> None:
        head = calls.tokens_of("pub fn f<F: Fn(u8) -> bool>(f: F) -> Result<Vec<u8>, E> where F: Fn() -> G")
        self.assertEqual(calls.result_of(head), {"Result", "<", "Vec", "u8", ">", ",", "E"})
        self.assertEqual(calls.result_of(calls.tokens_of("fn f(&mut self)")), set())

    def test_implementations(self) -> None:
        self.assertEqual(calls.implemented(calls.tokens_of("impl<T: Into<U>> a::Kept<T> where T: Drop")), (None, "Kept"))
        self.assertEqual(calls.implemented(calls.tokens_of("impl<DB> Part<DB> for &Kept<DB>")), ("Part", "Kept"))

    def test_items(self) -> None:
        found = list(calls.items_of(calls.tokens_of("#[a({})] pub const A: B = { c; }; fn f() ensures x { ; } { g() } struct S;")))
        self.assertEqual([item.head[:2] for item in found], [["pub", "const"], ["fn", "f"], ["struct", "S"]])
        self.assertEqual(found[1].body, ["g", "(", ")"])


class Comparing(unittest.TestCase):
    def missing(self, imports: str, body: str) -> set[str]:
        """What is missing where a test imports and does this."""
        with tempfile.TemporaryDirectory() as folder:
            top = Path(folder)
            (top / "crates.txt").write_text("# crates\nlow:\ntop: low\ntop_tests: low top\n", encoding="utf-8")
            for name, source in {
                "low/src/lib.rt": LOW,
                "top/src/lib.rt": LIBRARY,
                "top/src/inner.rt": INNER,
                "top_tests/src/every_call.rt": TESTS % (imports, body),
            }.items():
                (top / "crates" / name).parent.mkdir(parents=True, exist_ok=True)
                (top / "crates" / name).write_text(source, encoding="utf-8")
            functions, missing = calls.compared(top)
            self.assertEqual(len(functions), 7)
            return {f"{function.owner or function.crate}::{function.name}" for function in missing}

    def test_nothing_called(self) -> None:
        self.assertEqual(self.missing("free, below", "/* free() */ is(free, below)?;"),
                         {"low::below", "top::free", "Kept::copy", "Kept::begin", "Maker::make", "Maker::copy", "Handed::copy_all"})

    def test_functions(self) -> None:
        self.assertEqual(self.missing("free, below, Kept, Maker", "free(f)?; below(x)?; Kept::begin()?; k.make()?;"),
                         {"Kept::copy", "Maker::copy", "Handed::copy_all"})

    def test_a_method_of_two_types(self) -> None:
        self.assertIn("Kept::copy", self.missing("Kept, Maker", "k.copy()?;"))
        self.assertNotIn("Kept::copy", self.missing("Kept", "k.copy()?;"))
        self.assertNotIn("Kept::copy", self.missing("Kept, Maker", "Kept::copy(&k)?;"))

    def test_what_is_handed_on(self) -> None:
        self.assertTrue({"Maker::copy", "Handed::copy_all"}.isdisjoint(self.missing("Maker", "k.copy()?;")))

    def test_an_import_from_elsewhere(self) -> None:
        self.assertIn("top::free", self.missing("plain}; use other::{free", "free(f)?;"))


if __name__ == "__main__":
    unittest.main()
