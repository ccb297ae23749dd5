//! Calls between routines (point 14): "a lent set of 1 to 8 routines, without loop facts".

use crate::answer::{Refusal, RunAnswer, RunInput};
use crate::checker::{watch_in_set, Observer};
use crate::entry::check_entry;
use crate::machine::Machine;
use crate::table::{decode_member, Routine};
use std::fmt;

pub const MAX_ROUTINES: usize = 8;

/// A refusal, with the routine that is named; a set of a wrong size is 15, place 0, of routine 0.
#[derive(Clone, Copy, Debug, PartialEq, Eq)]
pub struct SetRefusal {
    pub routine: usize,
    pub refusal: Refusal,
}

impl fmt::Display for SetRefusal {
    fn fmt(&self, f: &mut fmt::Formatter<'_>) -> fmt::Result {
        let SetRefusal { routine, refusal } = self;
        let numbers = refusal.to_string();
        match refusal.cause {
            15 => write!(f, "{numbers}"),
            _ => write!(f, "refused routine {routine} {}", numbers.trim_start_matches("refused ")),
        }
    }
}

pub type SetCheckAnswer = Result<(), SetRefusal>;

/// The line the vectors use for an answer of the check.
pub fn show_check(answer: &SetCheckAnswer) -> String {
    match answer {
        Ok(()) => "accepted".to_string(),
        Err(refusal) => refusal.to_string(),
    }
}

/// The answer of a run: "stopped and spent give routine and statement".
#[derive(Clone, Copy, Debug, PartialEq, Eq)]
pub struct SetAnswer {
    /// Of a run that is done 0.
    pub routine: usize,
    pub answer: RunAnswer,
}

impl fmt::Display for SetAnswer {
    fn fmt(&self, f: &mut fmt::Formatter<'_>) -> fmt::Result {
        let SetAnswer { routine, answer } = *self;
        match answer {
            RunAnswer::Refused(refusal) => SetRefusal { routine, refusal }.fmt(f),
            RunAnswer::Done { .. } => answer.fmt(f),
            RunAnswer::Spent { steps, statement } => write!(f, "spent {steps} {routine} {statement}"),
            RunAnswer::Stopped { steps, statement, check } => {
                write!(f, "stopped {steps} {routine} {statement} {}", check as u8)
            }
            RunAnswer::Stuck { steps, statement } => write!(f, "STUCK {steps} {routine} {statement}"),
        }
    }
}

impl From<SetRefusal> for SetAnswer {
    fn from(SetRefusal { routine, refusal }: SetRefusal) -> SetAnswer {
        SetAnswer { routine, answer: RunAnswer::Refused(refusal) }
    }
}

/// The routines, where no cause refuses one: "A set of another size is 15, place 0; then routines are checked by number,
/// and the first one refused is named."
pub fn accept<T: AsRef<[i32]>>(tables: &[T]) -> Result<Vec<Routine>, SetRefusal> {
    if !(1..=MAX_ROUTINES).contains(&tables.len()) {
        return Err(SetRefusal { routine: 0, refusal: Refusal::at(15, 0) });
    }
    let mut routines: Vec<Routine> = Vec::new();
    for (number, table) in tables.iter().enumerate() {
        let checked = check_member(table.as_ref(), &routines, &mut ());
        routines.push(checked.map_err(|refusal| SetRefusal { routine: number, refusal })?);
    }
    Ok(routines)
}

/// A routine of a set, whole, where these are the ones before it; with somebody who looks on at its walk.
pub fn check_member(
    table: &[i32],
    before: &[Routine],
    observer: &mut dyn Observer,
) -> Result<Routine, Refusal> {
    let routine = decode_member(table, before.first().map(|first| &first.objects[..]))?;
    watch_in_set(&routine, before, observer)?;
    Ok(routine)
}

pub fn check<T: AsRef<[i32]>>(tables: &[T]) -> SetCheckAnswer {
    accept(tables).map(|_| ())
}

/// Checks the routines and the entry of the last one, then runs it in the lent buffers.
pub fn run<T: AsRef<[i32]>>(tables: &[T], input: &mut RunInput) -> SetAnswer {
    match accept(tables) {
        Err(refusal) => refusal.into(),
        Ok(routines) => run_routines(&routines, input),
    }
}

/// The run of an accepted set.
pub fn run_routines(routines: &[Routine], input: &mut RunInput) -> SetAnswer {
    let last = routines.len() - 1;
    if let Err(refusal) = check_entry(&routines[last], &*input) {
        return SetRefusal { routine: last, refusal }.into();
    }
    let RunInput { directory, cells, values, origins, allowance } = input;
    let mut machine = Machine::of_set(routines, directory, values, origins);
    let answer = machine.go(cells, u64::from(*allowance));
    ended(&machine, answer)
}

/// The answer of a machine that has given this one, with the routine that runs then.
pub fn ended(machine: &Machine, answer: RunAnswer) -> SetAnswer {
    let routine = if let RunAnswer::Done { .. } = answer { 0 } else { machine.running().routine };
    SetAnswer { routine, answer }
}

#[cfg(test)]
#[path = "set_tests.rs"]
mod tests;
