//! The proved routine checker and interpreter for Rust programs: `check` and `run` on slices, answers as enums.

mod cause;
mod editor;
mod extern_c;
mod sets;
mod turns;

pub use cause::Cause;
pub use editor::{edit, edit_start, kept, store_words, Edit, Edited, Editor, Walked};
pub use sets::{
    check_set, check_set_parts, run_set, run_set_parts, Lent, Set, SetOutcome, SetRoom, SetVerdict,
};
use std::fmt;
pub use turns::{dispatch, dispatch_parts, Parts, Room, Routine, Turns};

/// The stack of a thread that is enough for any call, at the deepest nesting.
pub const STACK_BYTES: usize = 131_072;

/// Why a routine, or a run of it, is refused.
#[derive(Clone, Copy, Debug, PartialEq, Eq)]
pub struct Refusal {
    /// The paper's number, 1 to 20.
    pub number: u32,
    /// Object, variable (a bounds row counts on behind the variables), statement, pair, entry of a list or position of an edit, by the number; 0
    /// where there is none.
    pub place: u32,
    /// For refusal 8 the lowest pointer variable whose declared bounds are not shown there; at a kind 14 its own pointer.
    pub pointer: Option<u32>,
}

#[derive(Clone, Copy, Debug, PartialEq, Eq)]
pub enum Verdict {
    Accepted,
    Refused(Refusal),
}

/// The named checks; a later library may have others.
#[derive(Clone, Copy, Debug, PartialEq, Eq)]
pub enum Check {
    ConditionFalse,
    NullAccess,
    OutOfBounds,
    NullArithmetic,
    AddressRange,
    /// Another number than 0 at the upper end of an nt_array_ptr.
    Terminator,
    Other(u32),
}

/// The paper's numbers of the checks, 1 to 6.
const CHECKS: [Check; 6] = [
    Check::ConditionFalse,
    Check::NullAccess,
    Check::OutOfBounds,
    Check::NullArithmetic,
    Check::AddressRange,
    Check::Terminator,
];

impl From<u32> for Check {
    fn from(number: u32) -> Check {
        let known = CHECKS.iter().zip(1..).find(|(_, known)| *known == number);
        known.map_or(Check::Other(number), |(check, _)| *check)
    }
}

impl Check {
    pub fn number(self) -> u32 {
        match self {
            Check::Other(number) => number,
            _ => CHECKS.iter().zip(1..).find(|(check, _)| **check == self).map_or(0, |(_, number)| number),
        }
    }
}

#[derive(Clone, Copy, Debug, PartialEq, Eq)]
pub enum Outcome {
    Done {
        steps: u32,
    },
    /// The allowance is used and a statement is due.
    Spent {
        steps: u32,
        statement: u32,
    },
    Stopped {
        steps: u32,
        statement: u32,
        check: Check,
    },
    /// Nothing was begun: no cell and no value is changed.
    Refused(Refusal),
}

fn refusal([number, place, pointer]: [u32; 3]) -> Refusal {
    Refusal { number, place, pointer: (number == 8).then_some(pointer) }
}

/// The version of the linked library: major, minor, patch.
pub fn version() -> [u32; 3] {
    let number = extern_c::version_number();
    [number / 10_000, number / 100 % 100, number % 100]
}

fn verdict(words: [u32; 3]) -> Verdict {
    match words {
        [0, ..] => Verdict::Accepted,
        words => Verdict::Refused(refusal(words)),
    }
}

fn outcome(words: [u32; 4]) -> Outcome {
    match words {
        [0, steps, ..] => Outcome::Done { steps },
        [1, steps, statement, _] => Outcome::Spent { steps, statement },
        [2, steps, statement, check] => Outcome::Stopped { steps, statement, check: Check::from(check) },
        [3, number, place, pointer] => Outcome::Refused(refusal([number, place, pointer])),
        _ => unreachable!("the library's outcomes are 0 to 3"),
    }
}

/// Checks a routine table.
pub fn check(table: &[i32]) -> Verdict {
    verdict(extern_c::check_words(table))
}

/// Checks a routine table with a list of loop facts, four words an entry: while statement, x, y, k. Where the routine is accepted, also
/// the statements, ascending, of the accesses that stop no run at check 2 or 3.
pub fn check_with_facts(table: &[i32], facts: &[i32]) -> (Verdict, Vec<u32>) {
    let (words, report) = extern_c::check_with_facts_words(table, facts);
    (verdict(words), report)
}

/// Runs a routine table on lent cells and values, `limit` steps at most. Only these two are written, and by a refusal neither.
pub fn run(
    table: &[i32],
    directory: &[u32],
    cells: &mut [u32],
    values: &mut [u32],
    origins: &[u32],
    limit: u32,
) -> Outcome {
    outcome(extern_c::run_words(table, directory, cells, values, origins, limit))
}

/// The same with a list of loop facts.
pub fn run_with_facts(
    table: &[i32],
    facts: &[i32],
    directory: &[u32],
    cells: &mut [u32],
    values: &mut [u32],
    origins: &[u32],
    limit: u32,
) -> Outcome {
    outcome(extern_c::run_with_facts_words(table, facts, directory, cells, values, origins, limit))
}

impl fmt::Display for Refusal {
    fn fmt(&self, f: &mut fmt::Formatter) -> fmt::Result {
        write!(f, "refused {} {}", self.number, self.place)?;
        match self.pointer {
            Some(pointer) => write!(f, " {pointer}"),
            None => Ok(()),
        }
    }
}

impl std::error::Error for Refusal {}

impl fmt::Display for Verdict {
    fn fmt(&self, f: &mut fmt::Formatter) -> fmt::Result {
        match self {
            Verdict::Accepted => write!(f, "accepted"),
            Verdict::Refused(refusal) => refusal.fmt(f),
        }
    }
}

impl fmt::Display for Outcome {
    fn fmt(&self, f: &mut fmt::Formatter) -> fmt::Result {
        match *self {
            Outcome::Done { steps } => write!(f, "done {steps}"),
            Outcome::Spent { steps, statement } => write!(f, "spent {steps} {statement}"),
            Outcome::Stopped { steps, statement, check } => {
                write!(f, "stopped {steps} {statement} {}", check.number())
            }
            Outcome::Refused(refusal) => refusal.fmt(f),
        }
    }
}
