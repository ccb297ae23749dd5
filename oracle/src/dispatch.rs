//! Several routines in turn (point 5): "a dispatcher over 1 to 8 accepted routines with separate values and one lent
//! memory".

use crate::answer::{Refusal, RunAnswer};
use crate::entry::{check_entry, Lent};
use crate::machine::Machine;
use crate::report::accept;
use crate::table::Routine;
use std::fmt;

pub const MAX_ROUTINES: usize = 8;
pub const MAX_QUANTUM: u32 = 1_000;

/// One routine, its list of loop facts, and what it is lent beside the memory.
#[derive(Clone, Debug, Default, PartialEq, Eq)]
pub struct Member {
    pub table: Vec<i32>,
    pub facts: Vec<i32>,
    pub directory: Vec<u32>,
    pub values: Vec<u32>,
    pub origins: Vec<u32>,
}

/// All that the dispatcher is lent.
#[derive(Clone, Debug, Default, PartialEq, Eq)]
pub struct Turns {
    pub members: Vec<Member>,
    pub cells: Vec<u32>,
    /// The steps of a turn.
    pub quantum: u32,
    /// The allowance of all routines together.
    pub total: u32,
}

#[derive(Clone, Copy, Debug, PartialEq, Eq)]
pub enum TurnsRefusal {
    /// 15: "when the count of routines or Q is out of range".
    OutOfRange,
    /// "each routine must pass all that its run alone checks, and the first that does not is named with its refusal".
    Routine { routine: usize, refusal: Refusal },
    /// 14: "the first routine whose objects overlap an earlier one's".
    Overlap { routine: usize },
}

impl fmt::Display for TurnsRefusal {
    fn fmt(&self, f: &mut fmt::Formatter<'_>) -> fmt::Result {
        match self {
            TurnsRefusal::OutOfRange => write!(f, "refused 15 0"),
            TurnsRefusal::Routine { routine, refusal } => {
                let numbers = refusal.to_string();
                write!(f, "refused routine {routine} {}", numbers.trim_start_matches("refused "))
            }
            TurnsRefusal::Overlap { routine } => write!(f, "refused 14 {routine}"),
        }
    }
}

/// A turn that made at least one step.
#[derive(Clone, Copy, Debug, PartialEq, Eq)]
pub struct Turn {
    pub routine: usize,
    pub steps: u64,
}

/// How each routine ended, and the turns.
#[derive(Clone, Debug, PartialEq, Eq)]
pub struct Dispatched {
    pub answers: Vec<RunAnswer>,
    pub order: Vec<Turn>,
}

/// Checks all routines, then gives them their turns in the lent buffers. A refusal changes nothing.
pub fn dispatch(lent: &mut Turns) -> Result<Dispatched, TurnsRefusal> {
    let routines = check(lent)?;
    let Turns { members, cells, quantum, total } = lent;
    let mut machines: Vec<Machine> = Vec::new();
    for (routine, Member { directory, values, origins, .. }) in routines.iter().zip(members) {
        machines.push(Machine::new(routine, directory, values, origins));
    }
    Ok(go_round(&mut machines, cells, u64::from(*quantum), u64::from(*total)))
}

/// The routines, where no cause refuses them.
pub fn check(lent: &Turns) -> Result<Vec<Routine>, TurnsRefusal> {
    if !(1..=MAX_ROUTINES).contains(&lent.members.len()) || !(1..=MAX_QUANTUM).contains(&lent.quantum) {
        return Err(TurnsRefusal::OutOfRange);
    }
    let mut routines = Vec::new();
    for (routine, member) in lent.members.iter().enumerate() {
        let checked = check_member(member, &lent.cells);
        routines.push(checked.map_err(|refusal| TurnsRefusal::Routine { routine, refusal })?);
    }
    match (1..lent.members.len()).find(|&r| overlaps_earlier(&lent.members, r)) {
        Some(routine) => Err(TurnsRefusal::Overlap { routine }),
        None => Ok(routines),
    }
}

/// "all that its run alone checks".
fn check_member(member: &Member, cells: &[u32]) -> Result<Routine, Refusal> {
    let Member { table, facts, directory, values, origins } = member;
    let accepted = accept(table, facts)?;
    check_entry(&accepted.routine, Lent { directory, cells, values, origins })?;
    Ok(accepted.routine)
}

/// Whether an object of routine r has a cell in common with one of a routine before it.
fn overlaps_earlier(members: &[Member], r: usize) -> bool {
    let objects = |member: &Member| -> Vec<(u32, u32)> {
        member.directory.chunks_exact(2).map(|pair| (pair[0], pair[0] + pair[1])).collect()
    };
    let own = objects(&members[r]);
    let mut earlier = members[..r].iter().flat_map(objects);
    earlier.any(|(low, high)| own.iter().any(|&(start, end)| start < high && low < end))
}

/// "It goes round by number, skips those that ended, and gives each a turn of Q steps .. under one total allowance."
fn go_round(machines: &mut [Machine], cells: &mut [u32], quantum: u64, total: u64) -> Dispatched {
    let is_active = |answer: &RunAnswer| matches!(answer, RunAnswer::Spent { .. });
    // One that is never served answers as a run with allowance 0.
    let mut answers: Vec<RunAnswer> = machines.iter_mut().map(|machine| machine.go(cells, 0)).collect();
    let mut order = Vec::new();
    let mut left = total;
    while left > 0 && answers.iter().any(is_active) {
        for (routine, machine) in machines.iter_mut().enumerate() {
            if left == 0 || !is_active(&answers[routine]) {
                continue;
            }
            let before = machine.steps();
            answers[routine] = machine.go(cells, before + quantum.min(left));
            let steps = machine.steps() - before;
            left -= steps;
            order.push(Turn { routine, steps });
        }
    }
    Dispatched { answers, order }
}

#[cfg(test)]
#[path = "dispatch_tests.rs"]
mod tests;
