"""Two small crates that aren't proved: what of a change in them changes which sum of the edit of `outer`, and what doesn't."""

CRATES = {
    "crates.txt": "low:\nhigh: low\n",
    "crates/low/src/lib.rt": """\
//! A size.
#![tactic(auto)]

ghost use Rattle.low.specs.Sizes.{fits};

/// The most.
pub const MOST: u8 = FULL;

const FULL: u8 = 9;

/// Inner.
#[derive(Drop)]
pub struct Inner {
    /// Its number.
    pub number: u8,
}

/// Outer.
#[derive(Drop)]
pub struct Size {
    inner: Inner,
}

impl Size {
    ghost use Rattle.std.specs.Prelude.{ℕ};

    /// The number.
    pub fn number(&self) -> u8
        ensures { fits result }
    {
        self.inner.number
    }

    ghost unit = { 1 };
}

impl From<u8> for Size {
    fn from(number: u8) -> Size
        ensures { number ≡ number }
    {
        Size { inner: Inner { number } }
    }
}

/// Computed where it is compiled.
pub const fn least() -> u8 {
    1
}
""",
    "crates/low/specs/Sizes.antt": """\
use Rattle.std.specs.Prelude.{ℕ, ◌≤◌}

-- small ones
abbrev pub fits : ℕ → Type 0
fits n = n ≤ 9

-- what a definition of another crate stands on
abbrev pub deeper : ℕ → ℕ
deeper n = deepest n

abbrev deepest : ℕ → ℕ
deepest n = n

-- beside it
abbrev pub beside : ℕ → Type 0
beside n = n ≤ 8
""",
    "crates/low/specs/Between.antt": "pub use Rattle.low.specs.Sizes.{deeper}\n",
    "crates/high/src/lib.rt": """\
//! What is edited.
#![tactic(auto)]

ghost use Rattle.std.specs.Prelude.{◌≡◌, ◌+◌};
ghost use Rattle.high.specs.Meant.{meant};

use low::{MOST, Size, least};

/// The outer one.
#[tactic(auto, using(crate::proofs::Lemmas::sums))]
pub fn outer(size: &Size) -> u8
    ensures { result ≡ meant size }
{
    // in it "http://a"
    helper(size.number()) + least() - MOST
}

/// Helps.
fn helper(n: u8) -> u8
    ensures { result ≡ n + 1 }
{
    n + 1
}

/// No matter.
fn other(n: u8) -> u8
    ensures { result ≡ n }
{
    n
}

#[cfg(test)]
mod tests;
""",
    "crates/high/src/tests.rt": "#[test]\nfn nothing() {}\n",
    "crates/high/specs/Meant.antt": """\
use Rattle.low.specs.Between.{deeper}

-- what is meant
abbrev mutual
  pub meant : ℕ → ℕ
  meant n = meant-too n

  pub meant-too : ℕ → ℕ
  meant-too n = deeper n

-- what nobody names
abbrev pub unnamed : ℕ → ℕ
unnamed n = n
""",
    "crates/high/proofs/Lemmas.antt": """\
use Rattle.std.proofs.Common.{refl}

-- sums
pub sums : ℕ → ℕ
sums n = n

pub parts : ℕ → ℕ
parts n = n

pub unneeded : ℕ → ℕ
unneeded n = n
""",
    "crates/high/proofs/outer/Answers.antt": """\
use Rattle.high.proofs.Lemmas.{parts}
use Rattle.high.proofs.outer.Goals as goal

-- by parts
pub returns : goal.returns
returns c = parts c.args.size
""",
    "crates/high/proofs/other/Answers.antt": "use Rattle.high.proofs.other.Goals as goal\n\npub returns : goal.returns\nreturns c = refl\n",
    "crates/high/edits/least_twice.edit": "file: src/lib.rt\nold: + least() -\nnew: + least() + least() -\n",
}

SRC, LOW, MEANT, SIZES = "crates/high/src/lib.rt", "crates/low/src/lib.rt", "crates/high/specs/Meant.antt", "crates/low/specs/Sizes.antt"
LEMMAS, ANSWERS = "crates/high/proofs/Lemmas.antt", "crates/high/proofs/outer/Answers.antt"
EDIT = "crates/high/edits/least_twice.edit"

# What changes an edit's own sum: what it is, the file, the old text and the new one.
OWN = [
    ("its own contract", SRC, "result ≡ meant size", "result ≡ meant (size)"),
    ("its own body", SRC, "helper(size.number()) +", "helper(size.number() / 1) +"),
    ("its attribute", SRC, "#[tactic(auto, using", "#[tactic(auto, tests, using"),
    ("an answer", ANSWERS, "returns c = parts", "returns c = (parts)"),
    ("an import of an answer", ANSWERS, "Lemmas.{parts}", "Others.{parts}"),
    ("where a name comes from", SRC, "use low::{MOST, Size, least};", "use low::{MOST, Size};\nuse low::other::least;"),
    ("the edit", EDIT, "+ least() + least() -", "+ least() * 2 -"),
]

# What changes the sum of what that rests on, alone.
RESTS = [
    ("a lemma of an answer", LEMMAS, "parts n = n", "parts n = (n)"),
    ("a lemma of its attribute", LEMMAS, "sums n = n", "sums n = (n)"),
    ("an import of a lemma's file", LEMMAS, "{refl}", "{refl as parts}"),
    ("a callee's contract", SRC, "result ≡ n + 1", "result ≡ 1 + n"),
    ("a method's contract, in a crate below", LOW, "ensures { fits result }", "ensures { fits (result) }"),
    ("a definition", MEANT, "  meant n = meant-too n", "  meant n = n"),
    ("a definition of the same cycle", MEANT, "meant-too n = deeper n", "meant-too n = (deeper n)"),
    ("a definition in a callee's contract", SIZES, "fits n = n ≤ 9", "fits n = n ≤ 7"),
    ("a definition far below, by way of a re-export", SIZES, "deeper n = deepest n", "deeper n = (deepest n)"),
    ("a definition of the same file that it stands on", SIZES, "deepest n = n", "deepest n = (n)"),
    ("a type", LOW, "    inner: Inner,", "    inner: Inner,\n    more: u8,"),
    ("a type within a type", LOW, "pub number: u8,", "pub number: u16,"),
    ("a derive of a type", LOW, "#[derive(Drop)]\npub struct Inner", "#[derive(Drop, Clone)]\npub struct Inner"),
    ("a ghost item of an impl behind its functions", LOW, "ghost unit = { 1 }", "ghost unit = { 2 }"),
    ("a conversion that `?` calls", LOW, "number ≡ number", "number ≡ (number)"),
    ("a constant", LOW, "MOST: u8 = FULL", "MOST: u8 = FULL + 0"),
    ("a constant of a constant", LOW, "FULL: u8 = 9", "FULL: u8 = 8"),
    ("a body that constants are computed with", LOW, "fn least() -> u8 {\n    1", "fn least() -> u8 {\n    2"),
    ("an attribute at the root", SRC, "#![tactic(auto)]", "#![tactic(auto, tests)]"),
    ("a macro", LOW, "/// The most.", "macro_rules! at {\n    () => {};\n}\n\n/// The most."),
    ("the crates below", "crates.txt", "high: low", "high:"),
    ("a crate of the kit below", "crates.txt", "high: low", "high: low hex"),
]

# What changes neither.
KEEPS = [
    ("a comment above it", SRC, "/// The outer one.", "/// Outer."),
    ("a comment within it", SRC, '    // in it "http://a"\n', ""),
    ("a comment of a crate below", LOW, "/// The number.", "/// Its number."),
    ("a comment of a field", LOW, "    /// Its number.\n", ""),
    ("a comment of a definition", MEANT, "-- what is meant", "-- meant"),
    ("a comment of an answer", ANSWERS, "-- by parts\n", ""),
    ("a callee's body", SRC, "{\n    n + 1\n}", "{\n    1 + n\n}"),
    ("a method's body, in a crate below", LOW, "self.inner.number\n", "self.inner.number + 0\n"),
    ("another body", SRC, "{\n    n\n}", "{\n    n + 0\n}"),
    ("another contract", SRC, "result ≡ n }", "result ≡ n + 0 }"),
    ("another function", SRC, "/// No matter.", "/// New.\nfn new_one() -> u8 {\n    1\n}\n\n/// No matter."),
    ("another's answer", "crates/high/proofs/other/Answers.antt", "= refl", "= (refl)"),
    ("another lemma", LEMMAS, "unneeded n = n", "unneeded n = (n)"),
    ("another definition of a crate below", SIZES, "beside n = n ≤ 8", "beside n = n ≤ 7"),
    ("another definition", MEANT, "unnamed n = n", "unnamed n = (n)"),
    ("an import that it doesn't use", SRC, "use low::{MOST, Size, least};", "use low::{MOST, Other, Size, least};"),
    ("a test", "crates/high/src/tests.rt", "fn nothing() {}", "fn nothing() {\n    let _one = 1;\n}"),
    ("a goal that it names", EDIT, "file: ", "goal: outer returns\nfile: "),
]
