//! A run by the second implementation, step by step: what each step does, and whether its end is that of the proved run.

use crate::library::{Ended, Lent};
use oracle::answer::RunAnswer;
use oracle::machine::Machine;
use oracle::report;
use oracle::set;
use oracle::table::Routine;

/// A routine or a set that the second implementation accepts, to be run by it.
pub struct Replay {
    routines: Vec<Routine>,
    lent: Lent,
    pub cells: Vec<u32>,
}

impl Replay {
    /// None where it refuses the routine, or one of the set.
    pub fn new(tables: &[Vec<i32>], facts: &[i32], lent: &Lent) -> Option<Replay> {
        let routines = match tables {
            [table] => vec![report::accept(table, facts).ok()?.routine],
            tables => set::accept(tables).ok()?,
        };
        Some(Replay { routines, lent: lent.clone(), cells: lent.cells.clone() })
    }

    /// The run, begun: an entry that the library takes. Cells are lent to each part of it.
    pub fn begin(&mut self) -> (Machine<'_>, &mut Vec<u32>) {
        let Replay { routines, lent: Lent { directory, values, origins, .. }, cells } = self;
        (Machine::of_set(routines, directory, values, origins), cells)
    }
}

/// An end in the words of the vectors, of a set with the routine that runs then.
pub fn said(machine: &Machine, answer: RunAnswer, is_set: bool) -> String {
    match is_set {
        true => set::ended(machine, answer).to_string(),
        false => answer.to_string(),
    }
}

/// Whether an end of a run, in the words of the vectors, is the proved one.
pub fn same_end(said: &str, values: &[u32], cells: &[u32], ended: &Ended, left: &Lent) -> bool {
    said == ended.to_string() && *values == left.values[..] && *cells == left.cells[..]
}
