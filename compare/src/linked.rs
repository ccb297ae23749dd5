//! The proved implementation behind the seam, through the wrapper that Rust programs use.

use crate::edits::{EditCase, Edited};
use crate::linked_editor;
use crate::proved::{CheckWords, Checked, Implementation, RunWords};
use crate::sets::{SetCheckWords, SetParts, SetRunWords};
use crate::turns::{Parts, TurnsWords};
use mizzengrape::{Lent, Outcome, Refusal, Room, Set, SetRoom, SetVerdict, Turns, Verdict};
use oracle::answer::RunInput;

pub struct Proved;

fn refusal_words(refusal: Refusal) -> CheckWords {
    [refusal.number, refusal.place, refusal.pointer.unwrap_or(0)]
}

pub fn verdict_words(verdict: Verdict) -> CheckWords {
    match verdict {
        Verdict::Accepted => [0; 3],
        Verdict::Refused(refusal) => refusal_words(refusal),
    }
}

fn outcome_words(outcome: Outcome) -> RunWords {
    match outcome {
        Outcome::Done { steps } => [0, steps, 0, 0],
        Outcome::Spent { steps, statement } => [1, steps, statement, 0],
        Outcome::Stopped { steps, statement, check } => [2, steps, statement, check.number()],
        Outcome::Refused(refusal) => {
            let [number, place, pointer] = refusal_words(refusal);
            [3, number, place, pointer]
        }
    }
}

impl Implementation for Proved {
    fn name(&self) -> &'static str {
        "proved implementation"
    }

    fn check(&self, table: &[i32], facts: &[i32]) -> Checked {
        let (verdict, report) = mizzengrape::check_with_facts(table, facts);
        Checked { words: verdict_words(verdict), report }
    }

    fn run(&self, table: &[i32], facts: &[i32], input: &mut RunInput) -> RunWords {
        let RunInput { directory, cells, values, origins, allowance } = input;
        let outcome =
            mizzengrape::run_with_facts(table, facts, directory, cells, values, origins, *allowance);
        outcome_words(outcome)
    }

    fn check_alone(&self, table: &[i32]) -> CheckWords {
        verdict_words(mizzengrape::check(table))
    }

    fn run_alone(&self, table: &[i32], input: &mut RunInput) -> RunWords {
        let RunInput { directory, cells, values, origins, allowance } = input;
        outcome_words(mizzengrape::run(table, directory, cells, values, origins, *allowance))
    }

    fn dispatch(&self, parts: &mut Parts) -> TurnsWords {
        let Parts { tables, facts, directories, cells, values, origins, lengths, quantum, total } = parts;
        let (quantum, total) = (*quantum, *total);
        let mut parts = mizzengrape::Parts { tables, facts, directories, cells, values, origins, lengths };
        match mizzengrape::dispatch_parts(&mut parts, quantum, total, &mut Room::default()) {
            Turns::Refused { routine, refusal } => {
                let [number, place, pointer] = refusal_words(refusal);
                vec![3, number, routine, place, pointer]
            }
            Turns::Ran(outcomes) => {
                let words = outcomes.iter().flat_map(|outcome| outcome_words(*outcome));
                [0, outcomes.len() as u32, 0, 0, 0].into_iter().chain(words).collect()
            }
        }
    }

    fn edits(&self, case: &EditCase) -> Edited {
        linked_editor::edits(case)
    }

    fn check_set(&self, parts: &SetParts) -> SetCheckWords {
        let set = Set { tables: &parts.tables, lengths: &parts.lengths };
        match mizzengrape::check_set_parts(set, &mut SetRoom::default()) {
            SetVerdict::Accepted => [0; 4],
            SetVerdict::Refused { routine, refusal } => {
                let [number, place, pointer] = refusal_words(refusal);
                [number, place, pointer, routine]
            }
        }
    }

    fn run_set(&self, parts: &mut SetParts) -> SetRunWords {
        let set = Set { tables: &parts.tables, lengths: &parts.lengths };
        let RunInput { directory, cells, values, origins, allowance } = &mut parts.input;
        let mut lent = Lent { directory, cells, values, origins };
        let ended = mizzengrape::run_set_parts(set, &mut lent, *allowance, &mut SetRoom::default());
        let [a, b, c, d] = outcome_words(ended.outcome);
        [a, b, c, d, ended.routine]
    }
}
