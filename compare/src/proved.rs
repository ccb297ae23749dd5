//! What an implementation under comparison offers: answers as words. The proved
//! implementation (`linked.rs`) and the fast form of this crate are both held
//! against the plain form.

use crate::edits::{EditCase, Edited};
use crate::linked::Proved;
use crate::sets::{
    members, set_check_words, set_run_words, show_set_run_words, SetCheckWords, SetParts, SetRunWords,
};
use crate::turns::{turns_words, Parts, TurnsWords};
use crate::{fast_check, fast_editor, fast_run, fast_sets, fast_turns};
use oracle::answer::{Refusal, RunAnswer, RunInput};

/// 0 for accepted, else the number of the refusal; its place; for refusal 8 the
/// lowest pointer whose declared bounds are not shown there, else 0.
pub type CheckWords = [u32; 3];

/// The answer of a check with a list: its words, and the statements of the reported accesses.
#[derive(Clone, Debug, PartialEq, Eq)]
pub struct Checked {
    pub words: CheckWords,
    pub report: Vec<u32>,
}

/// Outcome, then three words: 0 done (steps), 1 spent (steps, statement),
/// 2 stopped (steps, statement, check), 3 refused (number, place, pointer).
pub type RunWords = [u32; 4];

/// What an implementation under comparison offers. A run works in the lent
/// buffers: it may write `cells` and `values`, and nothing else. Several
/// threads call it at once.
pub trait Implementation: Sync {
    fn name(&self) -> &'static str;
    fn check(&self, table: &[i32], facts: &[i32]) -> Checked;
    fn run(&self, table: &[i32], facts: &[i32], input: &mut RunInput) -> RunWords;

    /// The calls without a list, where there are such.
    fn check_alone(&self, table: &[i32]) -> CheckWords {
        self.check(table, &[]).words
    }

    fn run_alone(&self, table: &[i32], input: &mut RunInput) -> RunWords {
        self.run(table, &[], input)
    }

    /// Several routines in turn; may write `cells` and `values`, and nothing else.
    fn dispatch(&self, parts: &mut Parts) -> TurnsWords;

    /// A table that is edited.
    fn edits(&self, case: &EditCase) -> Edited;

    /// A set of routines that call each other; a run may write `cells` and `values` of the input.
    fn check_set(&self, parts: &SetParts) -> SetCheckWords;
    fn run_set(&self, parts: &mut SetParts) -> SetRunWords;
}

/// The fast form of this crate behind the seam.
pub struct Fast;

impl Implementation for Fast {
    fn name(&self) -> &'static str {
        "fast form"
    }

    fn check(&self, table: &[i32], facts: &[i32]) -> Checked {
        checked(fast_check::check_with_facts(table, facts))
    }

    fn run(&self, table: &[i32], facts: &[i32], input: &mut RunInput) -> RunWords {
        run_words(&fast_run::run_with_facts(table, facts, input))
    }

    fn check_alone(&self, table: &[i32]) -> CheckWords {
        checked(fast_check::check(table).map(|()| Vec::new())).words
    }

    fn run_alone(&self, table: &[i32], input: &mut RunInput) -> RunWords {
        run_words(&fast_run::run(table, input))
    }

    fn dispatch(&self, parts: &mut Parts) -> TurnsWords {
        let mut turns = parts.turns();
        let answer = fast_turns::dispatch(&mut turns);
        parts.take(&turns);
        turns_words(&answer)
    }

    fn edits(&self, case: &EditCase) -> Edited {
        fast_editor::edits(case)
    }

    fn check_set(&self, parts: &SetParts) -> SetCheckWords {
        set_check_words(&fast_sets::check(&parts.members()).map(|_| ()))
    }

    fn run_set(&self, parts: &mut SetParts) -> SetRunWords {
        let SetParts { tables, lengths, input } = parts;
        set_run_words(&fast_sets::run(&members(tables, lengths), input))
    }
}

/// All implementations to compare with the plain form.
pub fn implementations() -> Vec<Box<dyn Implementation>> {
    vec![Box::new(Proved), Box::new(Fast)]
}

pub fn refusal_words(refusal: &Refusal) -> CheckWords {
    [refusal.cause.into(), refusal.place, refusal.pointer.unwrap_or(0).into()]
}

/// The answer of a check with a list, from the report or the refusal.
pub fn checked(answer: Result<Vec<u32>, Refusal>) -> Checked {
    match answer {
        Ok(report) => Checked { words: [0; 3], report },
        Err(refusal) => Checked { words: refusal_words(&refusal), report: Vec::new() },
    }
}

pub fn run_words(answer: &RunAnswer) -> RunWords {
    // Steps never exceed the allowance, which is below 4,294,967,296.
    match *answer {
        RunAnswer::Done { steps } => [0, steps as u32, 0, 0],
        RunAnswer::Spent { steps, statement } => [1, steps as u32, statement, 0],
        RunAnswer::Stopped { steps, statement, check } => [2, steps as u32, statement, check as u32],
        RunAnswer::Refused(refusal) => {
            let [number, place, pointer] = refusal_words(&refusal);
            [3, number, place, pointer]
        }
        RunAnswer::Stuck { steps, statement } => [u32::MAX, steps as u32, statement, 0],
    }
}

/// Whether words are the right answer. An alarm is right for nobody.
pub fn run_agrees(right: &RunAnswer, words: RunWords) -> bool {
    !matches!(right, RunAnswer::Stuck { .. }) && words == run_words(right)
}

/// An answer of a check as text, with its report.
pub fn show_checked(answer: &Checked) -> String {
    match answer.words[0] {
        0 => format!("accepted, safe {:?}", answer.report),
        _ => show_check_words(answer.words),
    }
}

/// Words as text, in the form of the vectors.
pub fn show_check_words([number, place, pointer]: CheckWords) -> String {
    match number {
        0 => "accepted".to_string(),
        8 => format!("refused 8 {place} {pointer}"),
        _ => format!("refused {number} {place}"),
    }
}

/// Words of a run of a routine or of a set as text.
pub fn show_words(words: &[u32]) -> String {
    match *words {
        [a, b, c, d] => show_run_words([a, b, c, d]),
        [a, b, c, d, e] => show_set_run_words([a, b, c, d, e]),
        _ => format!("unknown words {words:?}"),
    }
}

pub fn show_run_words(words: RunWords) -> String {
    let [outcome, a, b, c] = words;
    match outcome {
        0 => format!("done {a}"),
        1 => format!("spent {a} {b}"),
        2 => format!("stopped {a} {b} {c}"),
        3 => show_check_words([a, b, c]),
        _ => format!("unknown words {words:?}"),
    }
}

#[cfg(test)]
mod tests {
    use super::*;
    use oracle::answer::Check;

    #[test]
    fn an_answer_must_be_equal() {
        assert_eq!(checked(Err(Refusal::bounds(3, 2))).words, [8, 3, 2]);
        let right = RunAnswer::Stopped { steps: 4, statement: 2, check: Check::OutOfBounds };
        assert!(run_agrees(&right, [2, 4, 2, 3]));
        assert!(!run_agrees(&right, [2, 5, 2, 3]) && !run_agrees(&right, [1, 4, 2, 0]));
        let refused = RunAnswer::Refused(Refusal::bounds(3, 0));
        assert!(run_agrees(&refused, [3, 8, 3, 0]) && !run_agrees(&refused, [3, 8, 3, 2]));
        let alarm = RunAnswer::Stuck { steps: 1, statement: 0 };
        assert!(!run_agrees(&alarm, run_words(&alarm)));
    }
}
