//! The comparison of an implementation with the plain form of this crate.

use crate::generate::{case, Case};
use crate::noninterference::{Ended, Pair};
use crate::parallel::lowest;
use crate::promises;
use crate::proved::{
    checked, run_agrees, run_words, show_check_words, show_checked, show_run_words, Implementation, RunWords,
};
use crate::shrink::shrink;
use crate::vectors::join;
use oracle::answer::{Refusal, RunAnswer, RunInput};
use oracle::machine;
use oracle::report::{accept, Accepted};
use std::fmt::Write;
use std::slice::from_ref;

/// A case and its runs. The plain form checks the table once, and the buffers are used again at every
/// limit: each can be 64 MB, and new ones for each run took nearly a third of the time.
struct Runs<'a> {
    case: &'a Case,
    accepted: Result<Accepted, Refusal>,
    /// The second of two runs that must not be told apart; `None` where the entry is refused.
    pair: Option<Pair>,
    ours: RunInput,
    theirs: RunInput,
    second: RunInput,
}

type Run<'a> = &'a dyn Fn(&mut RunInput) -> RunWords;

fn lend(buffers: &mut RunInput, input: &RunInput, allowance: u32) {
    buffers.copy_from(input);
    buffers.allowance = allowance;
}

impl<'a> Runs<'a> {
    fn new(case: &'a Case) -> Runs<'a> {
        let accepted = accept(&case.table, &case.facts);
        let pair = accepted.as_ref().ok().and_then(|a| Pair::new(from_ref(&a.routine), &case.input));
        let [ours, theirs, second] = [(); 3].map(|_| RunInput::default());
        Runs { case, accepted, pair, ours, theirs, second }
    }

    fn check_difference(&self, other: &dyn Implementation) -> Option<String> {
        let Case { table, facts, .. } = self.case;
        let right = checked(self.accepted.as_ref().map(|a| a.report.clone()).map_err(|r| *r));
        let answer = other.check(table, facts);
        if answer != right {
            return Some(format!("check: {} and {}", show_checked(&right), show_checked(&answer)));
        }
        let alone = if facts.is_empty() { other.check_alone(table) } else { right.words };
        (alone != right.words).then(|| {
            format!("check without a list: {} and {}", show_checked(&right), show_check_words(alone))
        })
    }

    fn run_difference(&mut self, allowance: u32, other: &dyn Implementation) -> Option<String> {
        for buffers in [&mut self.ours, &mut self.theirs] {
            lend(buffers, &self.case.input, allowance);
        }
        let right = match &self.accepted {
            Err(refusal) => RunAnswer::Refused(*refusal),
            Ok(accepted) => match promises::run(accepted, &mut self.ours) {
                Err(broken) => return Some(broken),
                Ok(answer) => answer,
            },
        };
        let Case { table, facts, .. } = self.case;
        // Without a list there are two calls, which answer alike: at even limits the one that takes none.
        let words = match facts.is_empty() && allowance % 2 == 0 {
            true => other.run_alone(table, &mut self.theirs),
            false => other.run(table, facts, &mut self.theirs),
        };
        if !run_agrees(&right, words) {
            return Some(format!("run: {right} and {}", show_run_words(words)));
        }
        // All buffers: what may not be written must be as it was.
        if self.ours != self.theirs {
            return Some("buffers after the run differ".to_string());
        }
        self.leak(allowance, words, other)
    }

    /// What a run lets out of cells out of reach, by a second run of the plain form and of the other; the first
    /// runs of the two have just ended alike.
    fn leak(&mut self, allowance: u32, answer: RunWords, other: &dyn Implementation) -> Option<String> {
        let (Some(pair), Ok(accepted)) = (&self.pair, &self.accepted) else { return None };
        let first = Ended { answer: &answer, after: &self.ours };
        let plain = |buffers: &mut RunInput| run_words(&machine::run_routine(&accepted.routine, buffers));
        let others = |buffers: &mut RunInput| other.run(&self.case.table, &self.case.facts, buffers);
        let forms: [(&str, Run); 2] = [("plain form", &plain), (other.name(), &others)];
        for (name, run) in forms {
            lend(&mut self.second, &pair.second, allowance);
            let answer = run(&mut self.second);
            let second = Ended { answer: &answer, after: &self.second };
            if let Some(what) = pair.leak(&self.case.input.cells, first, second) {
                return Some(format!("{name}: {what}"));
            }
        }
        None
    }
}

/// What differs on a case, in words; `None` where all agrees.
pub fn difference(case: &Case, other: &dyn Implementation) -> Option<String> {
    let mut runs = Runs::new(case);
    runs.check_difference(other).or_else(|| runs.run_difference(case.input.allowance, other))
}

/// How many limits are tried on a case, and on how many of the generated cases.
const LIMITS: u32 = 200;
const SAMPLE: u64 = 64;

/// What differs on a case where its run is given each limit from 0 to its end.
pub fn at_every_limit(case: &Case, other: &dyn Implementation) -> Option<String> {
    let mut runs = Runs::new(case);
    // A check is given no limit: compared once, before the first.
    let mut check = runs.check_difference(other);
    (0..=case.input.allowance.min(LIMITS)).find_map(|limit| {
        let what = check.take().or_else(|| runs.run_difference(limit, other))?;
        Some(format!("with the limit {limit}: {what}"))
    })
}

/// The first difference among the cases from `first` on, as a report.
pub fn search(seed: u64, first: u64, count: u64, other: &dyn Implementation) -> Option<String> {
    let look = |number| {
        let found = case(seed, number);
        if number % SAMPLE == 0 {
            if let Some(what) = at_every_limit(&found, other) {
                return Some((found, what, true));
            }
        }
        let what = difference(&found, other)?;
        Some((found, what, false))
    };
    // Only the case to report is made small.
    let (number, (found, what, at_a_limit)) = lowest(first..first + count, look)?;
    Some(if at_a_limit {
        format!("seed {seed}, number {number}, {what}\n{}", vector(&found))
    } else {
        report(seed, number, &found, &what, other)
    })
}

/// Seed and number, then the case made small, with the plain form's answers.
fn report(seed: u64, number: u64, found: &Case, what: &str, other: &dyn Implementation) -> String {
    let small = shrink(found, &mut |c| difference(c, other).is_some());
    let what_small = difference(&small, other).unwrap_or_default();
    let mut text = String::new();
    let _ = writeln!(text, "difference: plain form and {}, seed {seed}, number {number}", other.name());
    let _ = writeln!(text, "as found: {what}");
    let _ = writeln!(text, "made small: {what_small}");
    text + &vector(&small)
}

/// A case in the format of the vector files, with the plain form's answers.
pub fn vector(case: &Case) -> String {
    let RunInput { directory, cells, values, origins, allowance } = &case.input;
    let mut after = case.input.clone();
    let accepted = accept(&case.table, &case.facts);
    let run = machine::run_with_facts(&case.table, &case.facts, &mut after);
    let mut text = String::new();
    let mut line = |name: &str, value: String| {
        text += format!("{name}: {value}").trim_end();
        text.push('\n');
    };
    line("table", join(&case.table));
    if !case.facts.is_empty() {
        line("facts", join(&case.facts));
    }
    line("directory", join(directory));
    line("cells", join(cells));
    line("values", join(values));
    line("origins", join(origins));
    line("allowance", allowance.to_string());
    match &accepted {
        Err(refusal) => line("check", refusal.to_string()),
        Ok(accepted) => {
            line("check", "accepted".to_string());
            line("safe", join(&accepted.report));
        }
    }
    line("run", run.to_string());
    if !matches!(run, RunAnswer::Refused(_)) {
        line("after-values", join(&after.values));
        line("after-cells", join(&after.cells));
    }
    text + "---\n"
}

#[cfg(test)]
mod tests {
    use super::*;
    use crate::edits::{EditCase, Edited};
    use crate::proved::{Checked, Fast};
    use crate::sets::{SetCheckWords, SetParts, SetRunWords};
    use crate::turns::{Parts, TurnsWords};
    use crate::vectors;

    /// Wrong on purpose: takes every refusal 9 for accepted.
    struct Lenient;

    impl Implementation for Lenient {
        fn name(&self) -> &'static str {
            "lenient"
        }

        fn check(&self, table: &[i32], facts: &[i32]) -> Checked {
            let answer = Fast.check(table, facts);
            match answer.words {
                [9, ..] => Checked { words: [0; 3], ..answer },
                _ => answer,
            }
        }

        fn run(&self, table: &[i32], facts: &[i32], input: &mut RunInput) -> RunWords {
            Fast.run(table, facts, input)
        }

        fn dispatch(&self, parts: &mut Parts) -> TurnsWords {
            Fast.dispatch(parts)
        }

        fn edits(&self, case: &EditCase) -> Edited {
            Fast.edits(case)
        }

        fn check_set(&self, parts: &SetParts) -> SetCheckWords {
            Fast.check_set(parts)
        }

        fn run_set(&self, parts: &mut SetParts) -> SetRunWords {
            Fast.run_set(parts)
        }
    }

    #[test]
    fn the_fast_form_agrees_with_the_plain_form() {
        assert_eq!(search(11, 0, 4_000, &Fast), None);
    }

    #[test]
    fn a_wrong_implementation_is_found_and_the_report_is_small() {
        // Number 0 has its run at every limit: that report is not made small.
        let report = search(12, 1, 4_000, &Lenient).expect("a difference");
        assert!(report.contains("seed 12") && report.contains("refused 9"));
        let case = report.split_once("table:").map(|(_, rest)| format!("table:{rest}")).unwrap();
        let read = vectors::read(&case).unwrap();
        assert!(read[0].differences().is_empty());
        let table = case.lines().next().expect("a table");
        assert!(table.split_whitespace().count() < 80, "{report}");
    }

    #[test]
    fn the_lowest_case_that_differs_is_the_one_reported() {
        let differs = |&number: &u64| difference(&case(12, number), &Lenient).is_some();
        for first in [0, 1, 700] {
            let number = (first..).find(differs).unwrap();
            let report = search(12, first, 4_000, &Lenient).expect("a difference");
            let found = if number % SAMPLE == 0 {
                format!("seed 12, number {number}, with the limit")
            } else {
                format!("difference: plain form and lenient, seed 12, number {number}\n")
            };
            assert!(report.starts_with(&found), "from {first}, {number}: {report}");
            assert_eq!(search(12, first, number - first, &Lenient), None);
        }
    }

    #[test]
    fn written_cases_read_back() {
        for number in 0..300 {
            let written = vector(&case(13, number));
            let read = vectors::read(&written).unwrap();
            assert!(read[0].differences().is_empty(), "number {number}");
        }
    }
}
