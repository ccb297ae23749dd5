//! The comparison of an implementation with the plain form where routines run in turn, and what point 5 promises of
//! the turns, held of the plain form.

use crate::generate::{turns_case, Case};
use crate::parallel::lowest;
use crate::proved::Implementation;
use crate::shrink::shrink;
use crate::turns::{turns_words, Parts};
use crate::vectors::join;
use oracle::answer::{RunAnswer, RunInput};
use oracle::dispatch::{dispatch, Dispatched, Member, Turns};
use oracle::machine;
use std::fmt::Write;

/// What differs on a set, in words; `None` where all agrees.
pub fn difference(parts: &Parts, other: &dyn Implementation) -> Option<String> {
    let mut turns = parts.turns();
    let answer = dispatch(&mut turns);
    let (mut ours, mut theirs) = (parts.clone(), parts.clone());
    ours.take(&turns);
    let (right, words) = (turns_words(&answer), other.dispatch(&mut theirs));
    if words != right {
        return Some(format!("answer words: {right:?} and {words:?}"));
    }
    // All buffers: what may not be written must be as it was.
    if ours != theirs {
        return Some("buffers after the turns differ".to_string());
    }
    broken(&parts.turns(), &turns, &answer.ok()?)
}

/// "Each routine's answer, values and own cells are those of a run by itself with the steps it received", no other cell
/// is written, and the turns go round.
fn broken(before: &Turns, after: &Turns, dispatched: &Dispatched) -> Option<String> {
    let mut others = after.cells.clone();
    for (r, (member, ended)) in before.members.iter().zip(&after.members).enumerate() {
        let received: u64 =
            dispatched.order.iter().filter(|turn| turn.routine == r).map(|turn| turn.steps).sum();
        let mut alone = RunInput { allowance: received as u32, ..input(before, member) };
        let answer = machine::run_with_facts(&member.table, &member.facts, &mut alone);
        if answer != dispatched.answers[r] || alone.values != ended.values {
            return Some(format!(
                "routine {r} ends in turn as {} and alone as {answer}",
                dispatched.answers[r]
            ));
        }
        for pair in member.directory.chunks_exact(2) {
            let own = pair[0] as usize..(pair[0] + pair[1]) as usize;
            if alone.cells[own.clone()] != after.cells[own.clone()] {
                return Some(format!("cells {own:?} of routine {r} differ from those of a run by itself"));
            }
            others[own.clone()].copy_from_slice(&before.cells[own]);
        }
    }
    if others != before.cells {
        return Some("a cell of no object is written".to_string());
    }
    unfair(before, dispatched)
}

/// "one that waits is served again after at most (n - 1) times Q steps of the others, unless the total runs out".
fn unfair(turns: &Turns, dispatched: &Dispatched) -> Option<String> {
    let quantum = u64::from(turns.quantum);
    let most = (turns.members.len() as u64 - 1) * quantum;
    let made: u64 = dispatched.order.iter().map(|turn| turn.steps).sum();
    for (r, answer) in dispatched.answers.iter().enumerate() {
        let mut waited = 0;
        for turn in &dispatched.order {
            if turn.steps == 0 || turn.steps > quantum {
                return Some(format!("a turn of {} steps", turn.steps));
            }
            if turn.routine == r {
                waited = 0;
            } else {
                waited += turn.steps;
            }
            let ended = dispatched.order.iter().rposition(|turn| turn.routine == r);
            let is_last = ended.is_some_and(|last| std::ptr::eq(turn, &dispatched.order[last]));
            if is_last && !matches!(answer, RunAnswer::Spent { .. }) {
                break;
            }
            if waited > most && !matches!(answer, RunAnswer::Done { steps: 0 }) {
                return Some(format!("routine {r} waits for {waited} steps of others"));
            }
        }
        if matches!(answer, RunAnswer::Spent { .. }) && made != u64::from(turns.total) {
            return Some(format!("routine {r} waits though {made} of {} steps are made", turns.total));
        }
    }
    None
}

/// What a run of one routine by itself is lent.
fn input(turns: &Turns, member: &Member) -> RunInput {
    let Member { directory, values, origins, .. } = member.clone();
    RunInput { directory, cells: turns.cells.clone(), values, origins, allowance: turns.total }
}

/// The first difference among the sets from `first` on, as a report.
pub fn search(seed: u64, first: u64, count: u64, other: &dyn Implementation) -> Option<String> {
    let look = |number| difference(&turns_case(seed, number), other);
    let (number, what) = lowest(first..first + count, look)?;
    let found = turns_case(seed, number);
    let mut text = String::new();
    let _ =
        writeln!(text, "difference: plain form and {}, turns of seed {seed}, number {number}", other.name());
    let _ = writeln!(text, "as found: {what}");
    let Some(small) = shrunk(&found, other) else {
        // Only with these lengths: no case of a vector file says it.
        return Some(format!("{text}{found:?}\n"));
    };
    let _ = writeln!(text, "made small: {}", difference(&small, other).unwrap_or_default());
    Some(text + &vector(&small.turns()))
}

/// Fewer and smaller routines, if right lengths of the parts do.
fn shrunk(found: &Parts, other: &dyn Implementation) -> Option<Parts> {
    let keeps = |turns: &Turns| difference(&Parts::of(turns), other).is_some();
    let mut best = found.turns();
    if !keeps(&best) {
        return None;
    }
    for r in (0..best.members.len()).rev() {
        let mut smaller = best.clone();
        smaller.members.remove(r);
        if keeps(&smaller) {
            best = smaller;
        }
    }
    for r in 0..best.members.len() {
        let put = |case: &Case| {
            let Case { table, facts, input } = case.clone();
            let RunInput { directory, cells, values, origins, allowance } = input;
            let mut turns = best.clone();
            turns.members[r] = Member { table, facts, directory, values, origins };
            Turns { cells, total: allowance, ..turns }
        };
        let Member { table, facts, .. } = best.members[r].clone();
        let case = Case { table, facts, input: input(&best, &best.members[r]) };
        let small = shrink(&case, &mut |case| keeps(&put(case)));
        best = put(&small);
    }
    Some(Parts::of(&best))
}

/// A set in the format of the vector files, with the plain form's answers.
pub fn vector(turns: &Turns) -> String {
    let mut lines = vec![
        "kind: dispatch".to_string(),
        format!("quantum: {}", turns.quantum),
        format!("allowance: {}", turns.total),
        format!("cells: {}", join(&turns.cells)),
    ];
    for Member { table, facts, directory, values, origins } in &turns.members {
        lines.extend([format!("table: {}", join(table)), format!("facts: {}", join(facts))]);
        let lent = [("directory", directory), ("values", values), ("origins", origins)];
        lines.extend(lent.map(|(name, words)| format!("{name}: {}", join(words))));
    }
    let mut turns = turns.clone();
    let answer = dispatch(&mut turns);
    lines.extend(answer_lines(&turns, &answer).into_iter().map(|line| format!("> {line}")));
    lines.iter().map(|line| format!("{}\n", line.trim_end())).collect::<String>() + "---\n"
}

/// The lines of an answer, with what the buffers then hold.
pub fn answer_lines<E: ToString>(turns: &Turns, answer: &Result<Dispatched, E>) -> Vec<String> {
    let dispatched = match answer {
        Err(refusal) => return vec![refusal.to_string()],
        Ok(dispatched) => dispatched,
    };
    let mut lines = Vec::new();
    for (r, (answer, member)) in dispatched.answers.iter().zip(&turns.members).enumerate() {
        lines.push(format!("routine {r}: {answer}"));
        lines.push(format!("values: {}", join(&member.values)));
    }
    lines.push(format!("cells: {}", join(&turns.cells)));
    let order = dispatched.order.iter().map(|turn| format!("{}:{}", turn.routine, turn.steps));
    lines.push(format!("order: {}", order.collect::<Vec<_>>().join(" ")));
    lines.iter().map(|line| line.trim_end().to_string()).collect()
}

#[cfg(test)]
mod tests {
    use super::*;
    use crate::edits::{EditCase, Edited};
    use crate::proved::{Checked, Fast, RunWords};
    use crate::sets::{SetCheckWords, SetParts, SetRunWords};
    use crate::turns::TurnsWords;
    use crate::vectors;

    #[test]
    fn the_fast_form_agrees_with_the_plain_form() {
        assert_eq!(search(41, 0, 1_500, &Fast), None);
    }

    /// Wrong on purpose: takes objects that overlap.
    struct Lenient;

    impl Implementation for Lenient {
        fn name(&self) -> &'static str {
            "lenient"
        }

        fn check(&self, table: &[i32], facts: &[i32]) -> Checked {
            Fast.check(table, facts)
        }

        fn run(&self, table: &[i32], facts: &[i32], input: &mut RunInput) -> RunWords {
            Fast.run(table, facts, input)
        }

        fn dispatch(&self, parts: &mut Parts) -> TurnsWords {
            match Fast.dispatch(parts)[..] {
                [3, 14, ..] => vec![0],
                ref words => words.to_vec(),
            }
        }

        fn edits(&self, case: &EditCase) -> Edited {
            Fast.edits(case)
        }

        fn check_set(&self, parts: &SetParts) -> SetCheckWords {
            Fast.check_set(parts)
        }

        fn run_set(&self, parts: &mut SetParts) -> SetRunWords {
            Fast.run_set(parts)
        }
    }

    #[test]
    fn a_wrong_implementation_is_found_and_the_report_is_small() {
        let report = search(42, 0, 1_500, &Lenient).expect("a difference");
        assert!(report.contains("turns of seed 42"), "{report}");
        let case = report.split_once("kind:").map(|(_, rest)| format!("kind:{rest}")).expect("a case");
        let read = vectors::read(&case).unwrap();
        assert!(read[0].differences().is_empty());
        assert_eq!(case.matches("table:").count(), 2, "{report}");
    }

    #[test]
    fn broken_promises_are_found() {
        let parts = (0..).map(|number| turns_case(43, number)).find(|parts| {
            let mut turns = parts.turns();
            turns.members.len() > 2 && dispatch(&mut turns).is_ok_and(|dispatched| dispatched.order.len() > 8)
        });
        let before = parts.expect("some turns").turns();
        let mut after = before.clone();
        let right = dispatch(&mut after).unwrap();
        assert_eq!(broken(&before, &after, &right), None);
        let mut one_way = right.clone();
        one_way.order.sort_by_key(|turn| turn.routine);
        assert!(unfair(&before, &one_way).is_some_and(|what| what.contains("waits")));
        let mut wrong = after.clone();
        wrong.cells[0] += 1;
        assert_eq!(broken(&before, &wrong, &right).unwrap(), "a cell of no object is written");
        let mut wrong = after;
        wrong.members[1].values[0] ^= 1;
        assert!(broken(&before, &wrong, &right).unwrap().starts_with("routine 1 ends in turn"));
    }
}
