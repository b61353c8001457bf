"""Tests of tools/wrong_at.py: code as Rust, and what an edit says taken apart."""
import pathlib
import subprocess
import tempfile
import unittest

import wrong_at

RATTLE = """// A comment with { in it.
#![tactic(auto)]
ghost use Rattle.zone.specs.Bay.{free};
use calls::Refusal;

#[derive(PartialEq, Clone, Copy, Drop)]
pub struct Pair {
    pub a: u32,
    ghost small: { a < 3 },
}

#[derive(Drop)]
struct Own {
    b: u32,
}

#[tactic(auto, using(crate::proofs::Laws::x))]
fn first(p: Pair) -> u32
    requires { p.a < (λ x. { x }) 3 }
    requires low { p.a < 2 }
    ensures* same { result ≡ p.a }
{
    p.a
}
"""

ROWS = """pub struct Rows<'a> {
    pub bytes: &'a [u8],
    pub ghost low: { at < length bytes.now },
    pub at: usize,
}

impl<'a> Iterator for Rows<'a> {
    ghost use Rattle.access.specs.rows.Rows.{CanStep};

    type Item = u8;

    ghost can_next = { CanStep };

    ghost next_gives = { λ s x t. { x } };

    #[inline(always)]
    fn next(&mut self) -> Option<u8> {
        let byte = *self.bytes.get(self.at)?;
        self.at += 1;
        Some(byte)
    }
}

trait Kind {
    const CODE: u32;
    fn code(&self) -> u32
        ensures { result ≡ code_of self }
    {
        Self::CODE
    }
}
"""
ROWS_IN_RUST = (
    "#[derive(Clone, Copy)] pub struct Rows<'a> { pub bytes: &'a [u8], pub at: usize, } impl<'a> Iterator for Rows<'a> { type Item = u8; #[inline(always)] "
    "fn next(&mut self) -> Option<u8> { let byte = *self.bytes.get(self.at)?; self.at += 1; Some(byte) } } trait Kind { const CODE: u32; fn code(&self) -> u32 { Self::CODE } }"
)
LENT = """#[derive(Drop)]
pub struct Lines<'a> {
    out: &'a mut [u8],
    at: usize,
}

struct Held<'a> {
    lines: Lines<'a>,
}

#[derive(Clone, Debug, Drop)]
enum Owned {
    Bytes(Vec<u8>),
}
"""
LENT_IN_RUST = "pub struct Lines<'a> { out: &'a mut [u8], at: usize, } struct Held<'a> { lines: Lines<'a>, } #[derive(Clone, Debug)] enum Owned { Bytes(Vec<u8>), }"
PRINTED = """use std::error::Error;
use std::fmt;

#[derive(Clone, Copy, Debug, PartialEq, Eq)]
pub enum Why {
    None,
    Named(u32),
}

impl fmt::Display for Why {
    fn fmt<W: fmt::Write>(&self, f: &mut fmt::Formatter<W>) -> fmt::Result {
        match self {
            Why::None => f.write_str("none"),
            Why::Named(n) => write!(f, "{n}"),
        }
    }
}

impl Error for Why {}

fn one<T: Drop>(t: T) -> Result<(), T> {
    Err(t)
}

const fn two<T: Copy + Drop, const N: usize>(t: T) -> [T; N] {
    [t; N]
}
"""
PRINTED_IN_RUST = (
    "use std::error::Error; use std::fmt; #[derive(Clone, Copy, Debug, PartialEq, Eq)] pub enum Why { None, Named(u32), } impl fmt::Display for Why { "
    "fn fmt(&self, f: &mut fmt::Formatter<'_>) -> fmt::Result { match self { Why::None => f.write_str(\"none\"), Why::Named(n) => write!(f, \"{n}\"), } } } impl Error for Why {} "
    "pub fn one<T>(t: T) -> Result<(), T> { Err(t) } pub const fn two<T: Copy, const N: usize>(t: T) -> [T; N] { [t; N] }"
)


class WrongAt(unittest.TestCase):
    def test_contracts_are_taken_out(self):
        words = wrong_at.rust(RATTLE).split()
        self.assertEqual(" ".join(words), "use calls::Refusal; #[derive(Clone, Copy, PartialEq)] pub struct Pair { pub a: u32, } #[derive(Clone, Copy)] struct Own { b: u32, } pub fn first(p: Pair) -> u32 { p.a }")

    def test_members_of_an_impl_and_fields(self):
        self.assertEqual(" ".join(wrong_at.rust(ROWS).split()), ROWS_IN_RUST)

    def test_what_cannot_be_copied(self):
        self.assertEqual(" ".join(wrong_at.rust(LENT).split()), LENT_IN_RUST)

    def test_bounds_and_printing(self):
        self.assertEqual(" ".join(wrong_at.rust(PRINTED).split()), PRINTED_IN_RUST)

    def test_it_is_rust(self):
        """What comes of these is compiled, and runs."""
        main = "#![allow(warnings)]\nfn main() {\n    assert_eq!(Rows { bytes: &[1, 2], at: 0 }.count(), 2);\n    assert_eq!(one(Why::Named(7)).unwrap_err().to_string(), \"7\");\n}\n"
        with tempfile.TemporaryDirectory() as folder:
            source, binary = pathlib.Path(folder) / "all.rs", pathlib.Path(folder) / "all"
            source.write_text(main + "".join(map(wrong_at.rust, (ROWS, LENT, PRINTED))), encoding="utf-8")
            subprocess.run(["rustc", "--edition", "2024", "-o", binary, source], check=True)
            subprocess.run([binary], check=True)

    def test_what_is_said(self):
        said = wrong_at.SAID.fullmatch("initialize 64 4; walker_step 32: 0 0 32 32, walker 32, not 0 0 32 32, walker 64")
        self.assertEqual(said.groups()[4:], ("0 0 32 32, walker 32", "0 0 32 32, walker 64"))
        said = wrong_at.SAID.fullmatch("initialize 64 4: byte 15 is 1, not 0")
        self.assertEqual(said.groups()[:4], ("initialize 64 4", "15", "1", "0"))

    def test_every_library_is_there(self):
        names = [name for name, _ in wrong_at.libraries()]
        self.assertIn("nafelode_c", names)
        self.assertNotIn("zone_run", names)


if __name__ == "__main__":
    unittest.main()
