//! Several routines in turn over one lent memory.

use crate::{extern_c, outcome, refusal, Outcome, Refusal};
use std::fmt;

/// One routine, its list of loop facts (often empty), and what it is lent beside the memory.
#[derive(Debug)]
pub struct Routine<'a> {
    pub table: &'a [i32],
    pub facts: &'a [i32],
    pub directory: &'a [u32],
    pub values: &'a mut [u32],
    pub origins: &'a [u32],
}

/// The parts of all routines one behind the other, and the memory. `lengths` has five words a routine: of its table, list, directory,
/// values and origins. A part that reaches past its slice is cut there.
#[derive(Debug)]
pub struct Parts<'a> {
    pub tables: &'a [i32],
    pub facts: &'a [i32],
    pub directories: &'a [u32],
    pub cells: &'a mut [u32],
    pub values: &'a mut [u32],
    pub origins: &'a [u32],
    pub lengths: &'a [u32],
}

const ENDS: usize = 4_096;
const SUCCESSORS: usize = 16_384;

/// What the dispatcher works in, 96 KB: lent, so that the stated stack is enough. It holds nothing from call to call.
#[derive(Debug)]
pub struct Room {
    pub(crate) ends: Vec<u64>,
    pub(crate) successors: Vec<u32>,
}

impl Default for Room {
    fn default() -> Room {
        Room { ends: vec![0; ENDS], successors: vec![0; SUCCESSORS] }
    }
}

/// What the dispatcher answers.
#[derive(Clone, Debug, PartialEq, Eq)]
pub enum Turns {
    /// For each routine how it ended, as by itself with the steps that it received.
    Ran(Vec<Outcome>),
    /// Nothing was begun. Of refusal 15 the routine is 0; of 14 it is the first whose objects overlap an earlier one's.
    Refused { routine: u32, refusal: Refusal },
}

/// Runs one to eight routines in turn, `quantum` steps a turn (1 to 1,000), `total` steps in all. Only cells and values are written, and by
/// a refusal neither.
pub fn dispatch(routines: &mut [Routine], cells: &mut [u32], quantum: u32, total: u32) -> Turns {
    let (mut tables, mut facts, mut directories) = (Vec::new(), Vec::new(), Vec::new());
    let (mut values, mut origins, mut lengths) = (Vec::new(), Vec::new(), Vec::new());
    for routine in routines.iter() {
        tables.extend(routine.table);
        facts.extend(routine.facts);
        directories.extend(routine.directory);
        values.extend(&*routine.values);
        origins.extend(routine.origins);
        let Routine { table, facts, directory, values, origins } = routine;
        let parts = [table.len(), facts.len(), directory.len(), values.len(), origins.len()];
        // No slice of a routine that passes is nearly as long as this; a longer one is refused either way.
        lengths.extend(parts.map(|length| u32::try_from(length).unwrap_or(u32::MAX)));
    }
    let (tables, facts, directories) = (&tables[..], &facts[..], &directories[..]);
    let (origins, lengths) = (&origins[..], &lengths[..]);
    let mut parts = Parts { tables, facts, directories, cells, values: &mut values, origins, lengths };
    let answer = dispatch_parts(&mut parts, quantum, total, &mut Room::default());
    let mut rest = &values[..];
    for routine in routines {
        let (own, others) = rest.split_at(routine.values.len());
        routine.values.copy_from_slice(own);
        rest = others;
    }
    answer
}

/// The same on parts that lie one behind the other already, and in lent room.
pub fn dispatch_parts(parts: &mut Parts, quantum: u32, total: u32, room: &mut Room) -> Turns {
    let words = extern_c::dispatch_words(parts, quantum, total, room);
    let [kind, number, routine, place, pointer, ..] = words;
    if kind != 0 {
        return Turns::Refused { routine, refusal: refusal([number, place, pointer]) };
    }
    let outcomes = words[5..].chunks_exact(4).take(number as usize);
    Turns::Ran(outcomes.map(|words| outcome([words[0], words[1], words[2], words[3]])).collect())
}

impl fmt::Display for Turns {
    fn fmt(&self, f: &mut fmt::Formatter) -> fmt::Result {
        match self {
            Turns::Refused { routine, refusal } => write!(f, "routine {routine}: {refusal}"),
            Turns::Ran(outcomes) => {
                for (routine, outcome) in outcomes.iter().enumerate() {
                    let comma = if routine > 0 { ", " } else { "" };
                    write!(f, "{comma}routine {routine}: {outcome}")?;
                }
                Ok(())
            }
        }
    }
}
