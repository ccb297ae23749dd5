//! The comparison of an implementation with the plain form where a table is edited.

use crate::edits::{plain, EditAnswer, EditCase, Edited, Written};
use crate::generate::edits_case;
use crate::parallel::lowest;
use crate::proved::{show_check_words, Implementation};
use crate::vectors::join;
use std::fmt::Write;

/// What differs on a case, in words; `None` where all agrees.
pub fn difference(case: &EditCase, other: &dyn Implementation) -> Option<String> {
    let (right, theirs) = (plain(case), other.edits(case));
    let differs = |call: &usize| right.get(*call) != theirs.get(*call);
    let call = (0..right.len().max(theirs.len())).find(differs)?;
    let what = match call {
        0 => "start".to_string(),
        edit => format!("edit {}", edit - 1),
    };
    let [ours, theirs] = [&right, &theirs].map(|edited| edited.get(call).map(answer_text));
    Some(match (ours, theirs) {
        (Some(ours), Some(theirs)) if ours == theirs => format!("{what}: buffers differ after {ours}"),
        (ours, theirs) => format!("{what}: {} and {}", ours.unwrap_or_default(), theirs.unwrap_or_default()),
    })
}

/// An answer but for its buffer.
fn answer_text(answer: &EditAnswer) -> String {
    format!("words {:?} stored {:?}", answer.words, answer.stored)
}

/// The first difference among the cases from `first` on, as a report.
pub fn search(seed: u64, first: u64, count: u64, other: &dyn Implementation) -> Option<String> {
    let (number, what) = lowest(first..first + count, |number| difference(&edits_case(seed, number), other))?;
    let small = shrunk(edits_case(seed, number), &|case| difference(case, other).is_some());
    let mut text = String::new();
    let _ =
        writeln!(text, "difference: plain form and {}, edits of seed {seed}, number {number}", other.name());
    let _ = writeln!(text, "as found: {what}");
    let _ = writeln!(text, "made small: {}", difference(&small, other).unwrap_or_default());
    Some(text + &vector(&small))
}

/// Fewer edits, places and positions to keep.
fn shrunk(mut best: EditCase, keeps: &dyn Fn(&EditCase) -> bool) -> EditCase {
    let offer = |best: &mut EditCase, change: &dyn Fn(&mut EditCase)| {
        let mut smaller = best.clone();
        change(&mut smaller);
        if keeps(&smaller) {
            *best = smaller;
        }
    };
    for e in (0..best.edits.len()).rev() {
        offer(&mut best, &|case| drop(case.edits.remove(e)));
    }
    offer(&mut best, &|case| case.keep.clear());
    for e in 0..best.edits.len() {
        offer(&mut best, &|case| case.edits[e].keep.clear());
    }
    best
}

/// The words behind the table in a vector file are all the same.
const BEHIND: i32 = 7_777;

/// A case in the format of the vector files, with the plain form's answers.
pub fn vector(case: &EditCase) -> String {
    let mut case = case.clone();
    case.buffer[case.length..].fill(BEHIND);
    let signed = |positions: &[u32]| join(&positions.iter().map(|&p| p as i32).collect::<Vec<_>>());
    let mut lines = vec![
        "kind: edit".to_string(),
        format!("buffer: {}", case.buffer.len()),
        format!("places: {}", case.places),
        format!("table: {}", join(&case.buffer[..case.length])),
        format!("keep: {}", signed(&case.keep)),
    ];
    for Written { operation, position, text, keep } in &case.edits {
        let name = ["insert", "replace", "remove"].get(*operation as usize).unwrap_or(&"other");
        lines.push(format!("edit: {name} {}", *position as i32));
        lines.extend([format!("text: {}", join(text)), format!("keep: {}", signed(keep))]);
    }
    lines.extend(answer_lines(&plain(&case)).into_iter().map(|line| format!("> {line}")));
    lines.iter().map(|line| format!("{}\n", line.trim_end())).collect::<String>() + "---\n"
}

/// The lines of an answer, in the format of the vector files.
pub fn answer_lines(edited: &Edited) -> Vec<String> {
    let mut lines = Vec::new();
    for (number, answer) in edited.iter().enumerate() {
        let [cause, place, pointer, count, _, is_edited] = answer.words;
        let verdict = show_check_words([cause, place, pointer]);
        match (number, is_edited) {
            (_, 1) => lines.push(format!("{verdict} walked {count}")),
            // A start that is refused, and nothing more.
            (0, _) => return vec![format!("{verdict} walked {count}")],
            _ => lines.push(format!("not edited {cause} {} walked {count}", place as i32)),
        }
        lines.push(format!("stored: {}", join(&answer.stored)).trim_end().to_string());
    }
    lines.extend(edited.last().map(|answer| format!("buffer: {}", join(&answer.buffer))));
    lines
}

#[cfg(test)]
mod tests {
    use super::*;
    use crate::proved::{Checked, Fast, RunWords};
    use crate::sets::{SetCheckWords, SetParts, SetRunWords};
    use crate::turns::{Parts, TurnsWords};
    use crate::vectors;
    use oracle::answer::RunInput;
    use std::collections::BTreeSet;

    #[test]
    fn the_fast_form_agrees_with_the_plain_form() {
        assert_eq!(search(51, 0, 2_000, &Fast), None);
    }

    #[test]
    fn edits_reach_every_answer() {
        let mut seen = BTreeSet::new();
        let (mut edits, mut resumed) = (0, 0);
        for number in 0..2_000 {
            let case = edits_case(52, number);
            for answer in &plain(&case)[1..] {
                let [cause, _, _, count, _, edited] = answer.words;
                seen.insert((edited, cause));
                edits += u64::from(edited == 1);
                resumed += u64::from(edited == 1 && count > 0 && !answer.stored.is_empty());
            }
        }
        for class in [(1, 0), (1, 8), (1, 9), (1, 13), (0, 5), (0, 6), (0, 18)] {
            assert!(seen.contains(&class), "{class:?}: {seen:?}");
        }
        assert!(3 * resumed > edits, "{resumed} of {edits}");
    }

    #[test]
    fn written_cases_read_back() {
        for number in 0..200 {
            let mut case = edits_case(53, number);
            case.edits.retain(|edit| edit.operation < 3);
            let read = vectors::read(&vector(&case)).unwrap();
            assert_eq!(read[0].differences(), [""; 0], "number {number}");
        }
    }

    /// Wrong on purpose: keeps the places behind an edit.
    struct Stale;

    impl Implementation for Stale {
        fn name(&self) -> &'static str {
            "stale"
        }

        fn check(&self, table: &[i32], facts: &[i32]) -> Checked {
            Fast.check(table, facts)
        }

        fn run(&self, table: &[i32], facts: &[i32], input: &mut RunInput) -> RunWords {
            Fast.run(table, facts, input)
        }

        fn dispatch(&self, parts: &mut Parts) -> TurnsWords {
            Fast.dispatch(parts)
        }

        fn edits(&self, case: &EditCase) -> Edited {
            let mut edited = Fast.edits(case);
            for answer in edited.iter_mut().filter(|answer| answer.words[5] == 1).skip(1) {
                answer.stored.push(u32::MAX);
            }
            edited
        }

        fn check_set(&self, parts: &SetParts) -> SetCheckWords {
            Fast.check_set(parts)
        }

        fn run_set(&self, parts: &mut SetParts) -> SetRunWords {
            Fast.run_set(parts)
        }
    }

    #[test]
    fn a_wrong_implementation_is_found_and_the_report_is_small() {
        let report = search(54, 0, 500, &Stale).expect("a difference");
        assert!(report.contains("edits of seed 54"), "{report}");
        assert_eq!(report.matches("\nedit:").count(), 1, "{report}");
    }
}
