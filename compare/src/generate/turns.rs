//! Sets of routines that run in turn (point 5) in one memory: apart, touching and overlapping, some refused; lengths of
//! their parts that are damaged.

use super::{case, Case};
use crate::rng::Rng;
use crate::turns::{Parts, LENGTHS};
use oracle::answer::{RunAnswer, RunInput};
use oracle::dispatch::{Member, Turns, MAX_QUANTUM, MAX_ROUTINES};
use oracle::machine;

/// Set `number` of a seed is always the same.
pub fn turns_case(seed: u64, number: u64) -> Parts {
    let mut rng = Rng::of_case(seed ^ 0x7475_726e, number);
    let turns = turns(&mut rng);
    let mut parts = Parts::of(&turns);
    if rng.chance(8) {
        damage(&mut rng, &mut parts);
    }
    parts
}

fn turns(rng: &mut Rng) -> Turns {
    let count = match rng.below(40) {
        0 => 0,
        1 => MAX_ROUTINES + 1,
        2..=5 => MAX_ROUTINES,
        _ => rng.range(1, 5) as usize,
    };
    let mut turns = Turns::default();
    let wrong = rng.chance(20);
    let mut most = 0;
    let mut endless = false;
    for r in 0..count {
        // One of the routines of some sets is any at all, most often refused.
        let any = wrong && r + 1 == count;
        let case = routine(rng, any);
        match steps(&case) {
            Some(steps) => most += steps,
            None => endless = true,
        }
        place(rng, &mut turns, case);
    }
    rng.shuffle(&mut turns.members);
    turns.quantum = match rng.below(20) {
        0 => rng.pick(&[0, MAX_QUANTUM + 1, u32::MAX]),
        1 | 2 => MAX_QUANTUM,
        3..=9 => rng.range(1, 3) as u32,
        _ => rng.range(1, 40) as u32,
    };
    turns.total = match rng.below(10) {
        0 => rng.pick(&[0, 1, 2]),
        1..=3 => rng.below(most as usize + 2) as u32,
        4 => most,
        5 => most + 1,
        6 => most.saturating_sub(1),
        _ if endless => rng.pick(&[100, 1_000, 5_000]),
        _ => u32::MAX,
    };
    turns
}

/// A generated case with little memory; its run is begun, unless it may be any.
fn routine(rng: &mut Rng, any: bool) -> Case {
    loop {
        let found = case(rng.next(), 0);
        let small = found.input.cells.len() <= 200 && found.table.len() <= 1_000;
        if small && (any || is_begun(&found)) {
            return found;
        }
    }
}

fn is_begun(case: &Case) -> bool {
    let mut input = RunInput { allowance: 0, ..case.input.clone() };
    !matches!(machine::run_with_facts(&case.table, &case.facts, &mut input), RunAnswer::Refused(_))
}

/// The steps of a run by itself, where it ends soon; of a refused one none.
fn steps(case: &Case) -> Option<u32> {
    let mut input = RunInput { allowance: 2_000, ..case.input.clone() };
    match machine::run_with_facts(&case.table, &case.facts, &mut input) {
        RunAnswer::Done { steps } | RunAnswer::Stopped { steps, .. } => Some(steps as u32),
        RunAnswer::Refused(_) => Some(0),
        _ => None,
    }
}

/// Puts a case behind the memory that is there, or over a part of it.
fn place(rng: &mut Rng, turns: &mut Turns, case: Case) {
    let Case { table, facts, input } = case;
    let RunInput { mut directory, cells, mut values, origins, .. } = input;
    // So that its first object touches what is there.
    let first = directory.first().copied().unwrap_or(1).clamp(1, 4) as usize;
    let end = turns.cells.len();
    let base = match rng.below(12) {
        0 => rng.below(end + 1),
        1 => end,
        _ => end.max(first) - first,
    };
    for pair in directory.chunks_mut(2) {
        pair[0] = pair[0].wrapping_add(base as u32);
    }
    for (value, _) in values.iter_mut().zip(&origins).filter(|(_, origin)| **origin > 0) {
        *value = value.wrapping_add(base as u32);
    }
    turns.cells.resize(end.max(base + cells.len()), 0);
    // The cells below its first object are another's.
    let own = first.min(cells.len());
    turns.cells[base + own..base + cells.len()].copy_from_slice(&cells[own..]);
    turns.members.push(Member { table, facts, directory, values, origins });
    // What lies over another's cells may break its entry; most often it should be 14 that is found.
    if !rng.chance(80) {
        turns.cells.truncate(turns.cells.len().saturating_sub(rng.below(2)));
    }
}

/// Lengths that are no longer those of the parts.
fn damage(rng: &mut Rng, parts: &mut Parts) {
    if parts.lengths.is_empty() {
        parts.lengths.push(0);
        return;
    }
    let at = rng.below(parts.lengths.len());
    match rng.below(8) {
        0 => parts.lengths.truncate(at),
        1 => parts.lengths.push(rng.below(9) as u32),
        2 => parts.lengths[at] = rng.pick(&[u32::MAX, u32::MAX - 1, 1 << 31]),
        3 => parts.lengths[at] = 0,
        4 => {
            let words = parts.tables.len();
            parts.tables.truncate(words.saturating_sub(1 + rng.below(9)));
        }
        // The last parts end with their slices: a greater length changes nothing.
        5 => {
            let last = parts.lengths.len() - LENGTHS.min(parts.lengths.len());
            parts.lengths[last..].iter_mut().for_each(|length| *length = length.saturating_mul(3));
        }
        6 => {
            parts.values.pop();
        }
        _ => parts.lengths[at] = parts.lengths[at].wrapping_add(rng.pick(&[1, u32::MAX])),
    }
}

#[cfg(test)]
mod tests {
    use super::*;
    use oracle::dispatch::{dispatch, TurnsRefusal};
    use std::collections::BTreeSet;

    #[test]
    fn sets_reach_every_answer() {
        let mut seen = BTreeSet::new();
        let mut ran = 0;
        for number in 0..1_500 {
            let parts = turns_case(31, number);
            assert_eq!(parts, turns_case(31, number));
            let mut turns = parts.turns();
            match dispatch(&mut turns) {
                Err(TurnsRefusal::Routine { refusal, .. }) => seen.insert(u32::from(refusal.cause)),
                Err(TurnsRefusal::Overlap { .. }) => seen.insert(14),
                Err(TurnsRefusal::OutOfRange) => seen.insert(15),
                Ok(dispatched) => {
                    ran += 1;
                    let rounds = dispatched.order.len() / turns.members.len();
                    seen.insert(100 + (rounds > 3) as u32) | seen.insert(200 + turns.members.len() as u32)
                }
            };
        }
        assert!(ran > 700, "{ran}");
        for class in [2, 5, 8, 10, 11, 12, 14, 15, 16, 17, 100, 101, 201, 204, 208] {
            assert!(seen.contains(&class), "{class}: {seen:?}");
        }
    }
}
