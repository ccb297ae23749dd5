//! Answers of the check and of a run, in the form the paper gives them.

use crate::syntax::Var;
use std::fmt;

/// A refusal: its cause and the place returned with it.
#[derive(Clone, Copy, Debug, PartialEq, Eq)]
pub struct Refusal {
    pub cause: u8,
    pub place: u32,
    /// Cause 8 only: the lowest-numbered pointer whose declared bounds are not shown there (point 6); for a kind
    /// 14's row that statement's pointer.
    pub pointer: Option<Var>,
}

impl Refusal {
    pub fn at(cause: u8, place: usize) -> Refusal {
        Refusal { cause, place: place as u32, pointer: None }
    }

    pub fn bounds(place: usize, pointer: Var) -> Refusal {
        Refusal { cause: 8, place: place as u32, pointer: Some(pointer) }
    }
}

impl fmt::Display for Refusal {
    fn fmt(&self, f: &mut fmt::Formatter<'_>) -> fmt::Result {
        write!(f, "refused {} {}", self.cause, self.place)?;
        match self.pointer {
            Some(pointer) => write!(f, " {pointer}"),
            None => Ok(()),
        }
    }
}

pub type CheckAnswer = Result<(), Refusal>;

/// The line the vectors use for an answer of the check.
pub fn show_check(answer: &CheckAnswer) -> String {
    match answer {
        Ok(()) => "accepted".to_string(),
        Err(refusal) => refusal.to_string(),
    }
}

/// The six checks of the plain machine.
#[derive(Clone, Copy, Debug, PartialEq, Eq)]
#[repr(u8)]
pub enum Check {
    Dynamic = 1,
    NullAccess = 2,
    OutOfBounds = 3,
    NullArithmetic = 4,
    Result = 5,
    /// Point 7: a kind 2 pointer stores "another number" than 0 at its upper end.
    Terminator = 6,
}

#[derive(Clone, Copy, Debug, PartialEq, Eq)]
pub enum RunAnswer {
    Refused(Refusal),
    Done {
        steps: u64,
    },
    Spent {
        steps: u64,
        statement: u32,
    },
    Stopped {
        steps: u64,
        statement: u32,
        check: Check,
    },
    /// An alarm, no answer of the paper: an access with no failing check lies
    /// outside its pointer's origin object, or the last cell of a terminated
    /// one would not be 0 after it. Never for an accepted routine.
    Stuck {
        steps: u64,
        statement: u32,
    },
}

impl fmt::Display for RunAnswer {
    fn fmt(&self, f: &mut fmt::Formatter<'_>) -> fmt::Result {
        match self {
            RunAnswer::Refused(refusal) => refusal.fmt(f),
            RunAnswer::Done { steps } => write!(f, "done {steps}"),
            RunAnswer::Spent { steps, statement } => write!(f, "spent {steps} {statement}"),
            RunAnswer::Stopped { steps, statement, check } => {
                write!(f, "stopped {steps} {statement} {}", *check as u8)
            }
            RunAnswer::Stuck { steps, statement } => write!(f, "STUCK {steps} {statement}"),
        }
    }
}

/// What the caller lends to a run besides the routine.
#[derive(Clone, Debug, Default, PartialEq, Eq)]
pub struct RunInput {
    pub directory: Vec<u32>,
    pub cells: Vec<u32>,
    pub values: Vec<u32>,
    pub origins: Vec<u32>,
    pub allowance: u32,
}

impl RunInput {
    /// Becomes the same as the other, in the memory it has already.
    pub fn copy_from(&mut self, other: &RunInput) {
        let RunInput { directory, cells, values, origins, allowance } = other;
        self.directory.clone_from(directory);
        self.cells.clone_from(cells);
        self.values.clone_from(values);
        self.origins.clone_from(origins);
        self.allowance = *allowance;
    }
}
