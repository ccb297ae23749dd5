//! Generated cases: case `number` of a seed is always the same case, so a
//! difference is reported as (seed, number).

mod edits;
mod faults;
mod inputs;
mod kinds;
mod layout;
mod lists;
mod routine;
mod sets;
mod turns;

use crate::fast_check;
use crate::rng::Rng;
pub use edits::edits_case;
use layout::Layout;
use oracle::answer::{CheckAnswer, RunInput};
use oracle::checker;
use oracle::draft::{without_statements, Draft, Listed};
use oracle::table::{decode, Routine, MAX_STATEMENTS};
use routine::Writer;
pub use sets::sets_case;
pub use turns::turns_case;

/// A table with its list of loop facts, and what a run of it is lent.
#[derive(Clone, Debug, PartialEq, Eq)]
pub struct Case {
    pub table: Vec<i32>,
    pub facts: Vec<i32>,
    pub input: RunInput,
}

pub fn case(seed: u64, number: u64) -> Case {
    let mut rng = Rng::of_case(seed, number);
    let (table, facts) = table(&mut rng);
    let accepted = fast_check::check_with_facts(&table, &facts).is_ok();
    let input = inputs::choose(&mut rng, &table, accepted);
    Case { table, facts, input }
}

/// A table and its list.
fn table(rng: &mut Rng) -> (Vec<i32>, Vec<i32>) {
    let mut draft = Draft::default();
    let layout = layout::choose(rng, &mut draft);
    let size = match rng.below(400) {
        0 => rng.range(150, 1_000),
        1..=40 => rng.range(20, 60),
        _ => rng.range(0, 14),
    };
    draft.statements = Writer { rng, layout: &layout }.body(size as usize, 0);
    draft.statements.truncate(MAX_STATEMENTS);
    if layout.terminated.contains(&true) {
        kinds::agree(rng, &mut draft, &layout);
    }
    // What makes the rest of a routine dead would hide most of what is in it.
    if rng.chance(70) {
        revive(&mut draft);
    }
    let mut list = if rng.chance(75) { lists::believed(rng, &draft) } else { Vec::new() };
    if rng.chance(55) {
        repair(rng, &mut draft, &mut list);
    }
    if rng.chance(80) {
        lists::take_out_unshown(rng, &draft, &mut list);
    }
    let facts = lists::words(rng, &draft, list);
    let fault = rng.below(100);
    if fault < 8 {
        faults::break_record(rng, &mut draft);
    }
    let large = fault == 20 && rng.chance(25);
    if large {
        faults::fill(&mut draft);
    }
    let mut words = draft.words();
    match fault {
        8..=17 => faults::mutate(rng, &mut words),
        18..=19 => faults::resize(rng, &mut words),
        // One word too many for the largest table.
        _ if large && rng.chance(40) => words.push(0),
        _ => {}
    }
    (words, facts)
}

/// Takes out each top statement behind which facts contradict.
fn revive(draft: &mut Draft) {
    while let Some(s) = decode(&draft.words()).ok().and_then(|routine| makes_dead(&routine)) {
        draft.remove(s, false);
    }
}

/// The first top statement behind which facts contradict.
fn makes_dead(routine: &Routine) -> Option<usize> {
    let mut dead = vec![false; routine.statements.len()];
    let end = checker::walk(routine, &mut |s, facts| dead[s] = facts.contradictory());
    dead.push(end.is_ok_and(|facts| facts.contradictory()));
    let mut s = 0;
    while s < routine.statements.len() {
        let next = s + routine.statements[s].size();
        if dead[next] {
            return Some(s);
        }
        s = next;
    }
    None
}

/// Takes out statements that are refused by 6, 8, 9 or 13, and entries refused by 17, until none is; now and then
/// leaves the rest as it is.
fn repair(rng: &mut Rng, draft: &mut Draft, list: &mut Vec<Listed>) {
    while let Err(refusal) = check_listed(draft, list) {
        if refusal.cause < 6 || draft.statements.is_empty() || rng.chance(4) {
            return;
        }
        if refusal.cause == 17 {
            list.remove(refusal.place as usize);
            continue;
        }
        // A 13 is rare without repair: something else is refused before it.
        if refusal.cause == 13 && rng.chance(25) {
            return;
        }
        let removed = draft.remove(refusal.place as usize, false);
        *list = without_statements(list, &removed);
    }
}

/// Without a list the quicker check does.
fn check_listed(draft: &Draft, list: &[Listed]) -> CheckAnswer {
    match list {
        [] => fast_check::check(&draft.words()),
        _ => fast_check::check_with_facts(&draft.words(), list.as_flattened()).map(|_| ()),
    }
}

/// An accepted table of exactly so many statements over so many variables, all
/// kinds but 14 mixed, for measuring. This and the next two stay the same from version to version.
pub fn accepted(seed: u64, statements: usize, variables: usize) -> Vec<i32> {
    measured(seed, statements, variables, |_, _, _| {})
}

/// The same with rows and kinds 14.
pub fn accepted_with_rows(seed: u64, statements: usize, variables: usize) -> Vec<i32> {
    measured(seed, statements, variables, |rng, draft, layout| layout::add_rows(rng, draft, layout, 16))
}

/// The same with elements of 3 cells.
pub fn accepted_with_sizes(seed: u64, statements: usize, variables: usize) -> Vec<i32> {
    measured(seed, statements, variables, |_, draft, layout| layout::set_sizes(draft, layout, 3))
}

fn measured(
    seed: u64,
    statements: usize,
    variables: usize,
    change: impl Fn(&mut Rng, &mut Draft, &mut Layout),
) -> Vec<i32> {
    let mut rng = Rng::of_case(seed, variables as u64);
    let mut draft = Draft { objects: vec![10, 4, 7], ..Draft::default() };
    let mut layout = layout::with_size(&mut rng, &mut draft, variables);
    change(&mut rng, &mut draft, &mut layout);
    while draft.statements.len() < statements {
        // A part that is accepted after what is there, and leaves no
        // contradiction behind: a table that is dead from there on measures nothing.
        let mut longer = draft.clone();
        let room = statements - draft.statements.len();
        longer.statements.extend(Writer { rng: &mut rng, layout: &layout }.body(room.min(4), 0));
        repair(&mut rng, &mut longer, &mut Vec::new());
        let length = longer.statements.len();
        if length <= statements && length > draft.statements.len() && ends_alive(&longer) {
            draft = longer;
        }
    }
    draft.words()
}

/// Whether a table is accepted and its facts do not contradict at its end.
fn ends_alive(draft: &Draft) -> bool {
    let routine = decode(&draft.words());
    routine.is_ok_and(|r| checker::walk(&r, &mut |_, _| {}).is_ok_and(|facts| !facts.contradictory()))
}

#[cfg(test)]
mod tests {
    use super::*;
    use oracle::table::Statement;

    #[test]
    fn a_case_is_always_the_same() {
        for number in 0..50 {
            assert_eq!(case(7, number), case(7, number));
        }
        assert_ne!(case(7, 1), case(8, 1));
    }

    type Make = fn(u64, usize, usize) -> Vec<i32>;

    #[test]
    fn tables_for_measuring_are_accepted() {
        let makes: [(Make, bool, u8); 3] =
            [(accepted, false, 1), (accepted_with_rows, true, 1), (accepted_with_sizes, false, 3)];
        for (make, rows, size) in makes {
            for variables in [11, 16] {
                let table = make(3, 1_024, variables);
                let routine = decode(&table).unwrap();
                assert_eq!((routine.statements.len(), routine.kinds.len()), (1_024, variables));
                assert_eq!(fast_check::check(&table), Ok(()));
                let declared = routine.statements.iter().filter(|s| matches!(s, Statement::Declare { .. }));
                assert_eq!(declared.count() > 50, rows);
                assert_eq!(routine.sizes.iter().max(), Some(&size));
            }
        }
    }

    /// Else times taken with two versions could not be compared.
    #[test]
    fn tables_for_measuring_stay_the_same() {
        let makes: [(Make, [u64; 2]); 3] = [
            (accepted, [0x15bf_1e33_ed86_ac41, 0x18ea_6190_8300_410f]),
            (accepted_with_rows, [0x8cb1_aec4_36eb_be39, 0x23cc_34c3_b2ef_13a2]),
            (accepted_with_sizes, [0xb845_cd74_bdb4_3ac3, 0x2a45_b3c1_68a6_bed7]),
        ];
        for (make, right) in makes {
            let sums = [11, 16].map(|variables| {
                let words = (0..8).flat_map(|seed| make(seed, 1_024, variables));
                words.fold(0xcbf2_9ce4_8422_2325u64, |sum, word| {
                    (sum ^ u64::from(word as u32)).wrapping_mul(0x0000_0100_0000_01b3)
                })
            });
            assert_eq!(sums, right);
        }
    }
}
