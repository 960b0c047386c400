"""A small crate, edits of it, and how what is said of each has to begin."""

CRATE = {
    "crates.txt": "small:\n",
    "crates/small/src/lib.rt": """\
//! Small numbers.

#![tactic(auto)]

ghost use Rattle.std.specs.Prelude.{◌≡◌, ◌+◌, ◌<◌};
ghost use Rattle.small.specs.Numbers.{double, is_even, is_odd};

mod other;

/// The least number that is no small one.
const LEAST: u8 = 100;

/// The least number that is no small one.
pub fn least() -> u8
    ensures { result ≡ 100 }
{
    LEAST
}

/// The number itself.
pub fn same(n: u8) -> u8
    ensures { result ≡ n }
{
    n
}

/// The number itself, once more.
pub fn equal(number: u8) -> u8
    ensures { result ≡ number }
{
    number
}

/// The number behind a small one.
pub fn next(n: u8) -> u8
    requires { n < 100 }
    ensures { result ≡ n + 1 }
{
    n + 1
}

/// The second number behind a small one.
pub fn second(n: u8) -> u8
    requires { n < 99 }
    ensures { result ≡ n + 2 }
{
    next(next(n))
}

/// Twice a small number.
pub fn twice(n: u8) -> u8
    requires { n < 100 }
    ensures { result ≡ double n }
{
    n + same(n)
}

/// Twice a small number, written otherwise.
pub fn doubled(number: u8) -> u8
    requires { number < 100 }
    ensures { result ≡ double number }
{
    number + same(number)
}

/// Whether a number is even.
#[cycle(parity)]
pub fn even(n: u8) -> bool
    ensures { result ≡ is_even n }
{
    if n == 0 {
        return true;
    }
    odd(n - 1)
}

/// Whether a number is odd.
#[cycle(parity)]
pub fn odd(n: u8) -> bool
    ensures { result ≡ is_odd n }
{
    if n == 0 {
        return false;
    }
    even(n - 1)
}

/// Nothing, one by one.
pub fn down(n: u8) -> u8
    ensures { result ≡ 0 }
{
    if n == 0 {
        return n;
    }
    down(n - 1)
}
""",
    "crates/small/src/other.rt": """\
//! A number beside the others.

ghost use Rattle.std.specs.Prelude.{◌≡◌};

/// Seven.
pub fn seven() -> u8
    ensures { result ≡ 7 }
{
    7
}
""",
    "crates/small/specs/Lib.antt": "pub mod Numbers\n",
    "crates/small/specs/Numbers.antt": """\
use Rattle.std.specs.Prelude.{ℕ, ◌+◌, zero, suc, Bool, true, false}

-- twice a number
unfoldable pub double : ℕ → ℕ
double zero = 0
double (suc n) = double n + 2

abbrev mutual
  -- whether a number is even
  pub is_even : ℕ → Bool
  is_even zero = true
  is_even (suc n) = is_odd n

  -- whether a number is odd
  pub is_odd : ℕ → Bool
  is_odd zero = false
  is_odd (suc n) = is_even n
""",
    "crates/small/proofs/Lib.antt": "mod Doubles\n",
    "crates/small/proofs/Doubles.antt": """\
use Rattle.std.proofs.Common.{ℕ, ◌≡◌, ◌+◌, zero, suc, refl, arith}
use Rattle.small.specs.Numbers.{double}

-- twice a number is the number and itself
pub double-is : (n : ℕ) → double n ≡ n + n
unfolding double
double-is zero = refl
double-is (suc n) = omega (arith, double-is n)
""",
    "crates/small/proofs/twice/Answers.antt": """\
use Rattle.std.proofs.Common.{arith}
use Rattle.small.proofs.Doubles.{double-is}
use Rattle.small.proofs.twice.Goals as goal

pub returns : goal.returns
returns c = omega (arith, double-is c.args.n, c.same.ensures)
""",
    "crates/small/proofs/doubled/Answers.antt": """\
use Rattle.std.proofs.Common.{arith}
use Rattle.small.proofs.Doubles.{double-is}
use Rattle.small.proofs.doubled.Goals as goal

pub returns : goal.returns
returns c = omega (arith, double-is c.args.number, c.same.ensures)
""",
    "crates/small/proofs/+parity/Invariants.antt": """\
use Rattle.small.proofs.+parity.Given as goal

abbrev pub decreases-even : goal.decreases-even
decreases-even l = l.n

abbrev pub decreases-odd : goal.decreases-odd
decreases-odd l = l.n
""",
    "crates/small/proofs/+down/Invariants.antt": """\
use Rattle.small.proofs.+down.Given as goal

abbrev pub decreases-down : goal.decreases-down
decreases-down l = l.n
""",
}


def edit(old, new, file="src/lib.rt", head=""):
    """The text of an edit."""
    return f"{head}file: {file}\nold: {old}\nnew: {new}\n"


NEXT_ENSURES = ("    ensures { result ≡ n + 1 }", "    ensures { n < result }")

EDITS = {
    "a_value": (edit("    n + 1", "    n + 2"), "refused at returns"),
    "a_value_with_an_answer": (edit("    number + same(number)", "    number + same(0)"), "refused at returns"),
    "a_constant": (edit("u8 = 100;", "u8 = 99;", head="judge: least\n"), "refused at returns"),
    "in_a_cycle": (edit("return true;", "return false;"), "refused at even-returns"),
    "in_the_same_cycle": (edit("return false;", "return true;"), "refused at odd-returns"),
    "in_a_cycle_at_its_goal": (
        edit("    odd(n - 1)", "    odd(n - 1) == false", head="goal: even even-returns\n"),
        "refused at even-returns",
    ),
    "a_caller_as_judge": (edit(*NEXT_ENSURES, head="judge: second\n"), "refused at next-requires"),
    "a_caller_alone": (edit(*NEXT_ENSURES), "NOT REFUSED: only small::second refuses it"),
    "the_end_as_meant": (edit("    down(n - 1)", "    down(n)", head="refused-by: termination\n"), "refused at"),
    "the_end_unmeant": (edit("    down(n - 1)", "    down(n)"), "what is refused isn't what the edit is about"),
    "a_value_at_its_goal": (edit("    n + 1", "    n + 3", head="goal: next returns\n"), "refused at returns"),
    "an_answer_at_its_goal": (
        edit("    number + same(number)", "    number + same(1)", head="goal: doubled returns\n"),
        "refused at returns",
    ),
    "holds_at_its_goal": (
        edit("    number + same(number)", "    same(number) + number", head="goal: doubled returns\n"),
        "NOT REFUSED: it is still proved",
    ),
    "answers_alone_at_its_goal": (
        edit("    n + same(n)", "    equal(n) + n", head="goal: twice returns\n"),
        "only a written proof no longer fits",
    ),
    "no_such_goal": (edit("    n + 1", "    n + 4", head="goal: next returns-then\n"), "refused at returns"),
    "answers_alone": (edit("    n + same(n)", "    n + equal(n)"), "only a written proof no longer fits"),
    "still_proved": (edit("    LEAST", "    LEAST - 0"), "NOT REFUSED: it is still proved"),
    "nothing": (edit("    n + 1", "    n + 1"), "BAD EDIT: it changes nothing"),
    "not_once": (edit("    n", "    1"), "BAD EDIT: an old text stands"),
    "not_parsed": (edit("    7", "    (7", "src/other.rt"), "BAD EDIT: it isn't read: src/other.rt"),
}
