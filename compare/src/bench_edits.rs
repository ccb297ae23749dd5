//! What an edit costs beside a check of the same table from nothing, by the proved implementation in one run.

use crate::edits::{EditCase, Written};
use crate::generate::accepted;
use crate::linked::Proved;
use crate::linked_editor::Lent;
use crate::proved::Implementation;
use oracle::draft::Draft;
use oracle::editor::REPLACE;
use oracle::table::decode;
use std::hint::black_box;
use std::ops::Range;
use std::time::Instant;

const STATEMENTS: usize = 1_024;
const VARIABLES: [usize; 2] = [11, 16];
const TABLES: u64 = 8;
const ROUNDS: usize = 60;

/// A place is kept at each so many-th statement outside of all blocks.
const APART: usize = 16;

/// An edit in the last tenth costs at most this part of a check from nothing.
const GOAL: f64 = 0.2;

/// Edits in parts of the statements outside of all blocks, in percent.
const PARTS: [(&str, Range<usize>); 4] =
    [("at the start", 0..1), ("in the middle", 50..51), (LAST_TENTH, 90..100), ("at the end", 99..100)];
const LAST_TENTH: &str = "in the last tenth";

/// A table of 1,024 statements and statements of each part, to be replaced by themselves.
struct Edited {
    case: EditCase,
    parts: Vec<Vec<Written>>,
}

impl Edited {
    fn new(table: Vec<i32>) -> Edited {
        let statements = Draft::from_words(&table).expect("a right directory").statements;
        let tops = top_level(&table);
        let keep: Vec<u32> = tops.iter().step_by(APART).map(|top| top.start as u32).collect();
        let written = |top: &Range<usize>| Written {
            operation: REPLACE,
            position: top.start as u32,
            text: statements[top.clone()].concat(),
            keep: keep.clone(),
        };
        let part = |percent: &Range<usize>| {
            let [first, last] = [percent.start, percent.end].map(|part| part * tops.len() / 100);
            // One of each place's share, and both ends.
            let inner = tops[first..last.max(first + 1)].iter();
            let mut part: Vec<Written> = inner.step_by(APART / 2).map(written).collect();
            part.extend(tops[..last.max(first + 1)].last().map(written));
            part
        };
        let parts = PARTS.iter().map(|(_, percent)| part(percent)).collect();
        let case = EditCase { length: table.len(), buffer: table, places: keep.len(), keep, edits: vec![] };
        Edited { case, parts }
    }
}

/// The statements outside of all blocks, with their blocks.
fn top_level(table: &[i32]) -> Vec<Range<usize>> {
    let routine = decode(table).expect("an accepted table");
    let mut tops = vec![];
    let mut s = 0;
    while s < routine.statements.len() {
        let next = s + routine.statements[s].size();
        tops.push(s..next);
        s = next;
    }
    tops
}

/// Nanoseconds.
fn timed(call: impl FnOnce()) -> f64 {
    let begun = Instant::now();
    call();
    begun.elapsed().as_nanos() as f64
}

/// The best times over all rounds: of the check, and of an edit in each part.
fn measured(edited: &Edited) -> (f64, Vec<f64>) {
    let Edited { case, parts } = edited;
    let mut lent = Lent::new(case);
    assert_eq!(lent.start(case.length, &case.keep)[0], 0, "accepted");
    let mut check = f64::INFINITY;
    let mut edits: Vec<Vec<f64>> = parts.iter().map(|part| vec![f64::INFINITY; part.len()]).collect();
    for _ in 0..ROUNDS {
        // In turn, so that other work on the machine meets both.
        check = check.min(timed(|| assert_eq!(Proved.check_alone(black_box(&case.buffer))[0], 0)));
        for (part, best) in parts.iter().zip(&mut edits) {
            for (written, best) in part.iter().zip(best) {
                *best =
                    best.min(timed(|| assert_eq!(lent.edit(black_box(written))[..2], [0, 0], "accepted")));
            }
        }
    }
    let mean = |times: Vec<f64>| times.iter().sum::<f64>() / times.len() as f64;
    (check, edits.into_iter().map(mean).collect())
}

pub fn edits() {
    for variables in VARIABLES {
        let tables: Vec<Edited> =
            (0..TABLES).map(|seed| Edited::new(accepted(seed, STATEMENTS, variables))).collect();
        let places: usize = tables.iter().map(|edited| edited.case.places).sum();
        let times: Vec<(f64, Vec<f64>)> = tables.iter().map(measured).collect();
        let check = times.iter().map(|(check, _)| check).sum::<f64>();
        println!(
            "{TABLES} tables of {STATEMENTS} statements, {variables} variables, {places} places in all; \
             a check from nothing: {:.1} us",
            check / TABLES as f64 / 1e3
        );
        for (number, (name, _)) in PARTS.iter().enumerate() {
            let part = times.iter().map(|(_, edits)| edits[number]).sum::<f64>();
            let ratio = part / check;
            let goal = match *name == LAST_TENTH {
                true if ratio <= GOAL => format!(", goal at most {GOAL:.2}: met"),
                true => format!(", goal at most {GOAL:.2}: MISSED"),
                false => String::new(),
            };
            println!(
                "edit {name}, {variables} variables: {:.1} us, {ratio:.3} of a check{goal}",
                part / TABLES as f64 / 1e3
            );
        }
    }
}

#[cfg(test)]
mod tests {
    use super::*;
    use crate::edits::plain;

    #[test]
    fn the_measured_edits_are_made_and_accepted() {
        let Edited { mut case, parts } = Edited::new(accepted(0, 200, 11));
        case.edits = parts.concat();
        let answers = plain(&case);
        assert!(answers.iter().all(|answer| answer.words[0] == 0 && answer.words[5] == 1));
        assert!(answers.iter().all(|answer| answer.stored.len() == case.places));
        assert_eq!(answers.last().map(|answer| &answer.buffer), Some(&case.buffer));
        // Near the end little is walked.
        assert!(answers.last().is_some_and(|answer| answer.words[3] < 100), "{:?}", answers.last());
    }
}
