//! A set of routines of which later ones call earlier ones.

use crate::turns::Room;
use crate::{extern_c, outcome, Outcome, Refusal, Verdict};
use std::fmt;

/// The tables of a set one behind the other; `lengths` has one word a routine. A table that reaches past its slice is cut there.
#[derive(Clone, Copy, Debug)]
pub struct Set<'a> {
    pub tables: &'a [i32],
    pub lengths: &'a [u32],
}

/// What a run of a set is lent: as of a routine by itself, with a value and an origin for each variable of the last routine.
#[derive(Debug)]
pub struct Lent<'a> {
    pub directory: &'a [u32],
    pub cells: &'a mut [u32],
    pub values: &'a mut [u32],
    pub origins: &'a [u32],
}

const MEMBER: usize = 7_720;

/// What the calls for sets work in, 127 KB: lent, so that the stated stack is enough. It holds nothing from call to call.
#[derive(Debug)]
pub struct SetRoom {
    pub(crate) member: Vec<i32>,
    pub(crate) room: Room,
}

impl Default for SetRoom {
    fn default() -> SetRoom {
        SetRoom { member: vec![0; MEMBER], room: Room::default() }
    }
}

#[derive(Clone, Copy, Debug, PartialEq, Eq)]
pub enum SetVerdict {
    Accepted,
    /// The first routine that is refused; of refusal 15, a wrong number of routines, it is 0.
    Refused {
        routine: u32,
        refusal: Refusal,
    },
}

/// How a run of a set ended.
#[derive(Clone, Copy, Debug, PartialEq, Eq)]
pub struct SetOutcome {
    /// Of a spent or stopped run the routine whose statement is due, of a refused one the routine refused; else 0.
    pub routine: u32,
    pub outcome: Outcome,
}

/// The tables one behind the other, and their lengths.
fn joined(tables: &[&[i32]]) -> (Vec<i32>, Vec<u32>) {
    // No table that passes is nearly as long as this; a longer one is refused either way.
    let length = |table: &&[i32]| u32::try_from(table.len()).unwrap_or(u32::MAX);
    (tables.concat(), tables.iter().map(length).collect())
}

/// Checks the tables of a set, one to eight: each may call those before it.
pub fn check_set(tables: &[&[i32]]) -> SetVerdict {
    let (tables, lengths) = joined(tables);
    check_set_parts(Set { tables: &tables, lengths: &lengths }, &mut SetRoom::default())
}

/// The same on tables that lie one behind the other already, and in lent room.
pub fn check_set_parts(set: Set, room: &mut SetRoom) -> SetVerdict {
    let [number, place, pointer, routine] = extern_c::check_set_words(set, room);
    match crate::verdict([number, place, pointer]) {
        Verdict::Accepted => SetVerdict::Accepted,
        Verdict::Refused(refusal) => SetVerdict::Refused { routine, refusal },
    }
}

/// Runs a set from its last routine on, `limit` steps at most. Only cells and values are written, and by a refusal neither.
pub fn run_set(tables: &[&[i32]], lent: &mut Lent, limit: u32) -> SetOutcome {
    let (tables, lengths) = joined(tables);
    run_set_parts(Set { tables: &tables, lengths: &lengths }, lent, limit, &mut SetRoom::default())
}

/// The same on tables that lie one behind the other already, and in lent room.
pub fn run_set_parts(set: Set, lent: &mut Lent, limit: u32, room: &mut SetRoom) -> SetOutcome {
    let [kind, a, b, c, routine] = extern_c::run_set_words(set, lent, limit, room);
    SetOutcome { routine, outcome: outcome([kind, a, b, c]) }
}

/// `refused routine 1 20 0`; of 15 there is no routine.
fn refused(f: &mut fmt::Formatter, routine: u32, refused: Refusal) -> fmt::Result {
    let numbers = refused.to_string();
    match refused.number {
        15 => f.write_str(&numbers),
        _ => write!(f, "refused routine {routine} {}", numbers.trim_start_matches("refused ")),
    }
}

impl fmt::Display for SetVerdict {
    fn fmt(&self, f: &mut fmt::Formatter) -> fmt::Result {
        match *self {
            SetVerdict::Accepted => write!(f, "accepted"),
            SetVerdict::Refused { routine, refusal } => refused(f, routine, refusal),
        }
    }
}

impl fmt::Display for SetOutcome {
    fn fmt(&self, f: &mut fmt::Formatter) -> fmt::Result {
        let SetOutcome { routine, outcome } = *self;
        match outcome {
            Outcome::Done { .. } => outcome.fmt(f),
            Outcome::Spent { steps, statement } => write!(f, "spent {steps} {routine} {statement}"),
            Outcome::Stopped { steps, statement, check } => {
                write!(f, "stopped {steps} {routine} {statement} {}", check.number())
            }
            Outcome::Refused(refusal) => refused(f, routine, refusal),
        }
    }
}
