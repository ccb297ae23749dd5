//! The comparison of an implementation with the plain form where routines of a set call each other, and what is claimed
//! of every point of such a run, held of the plain form.

use crate::generate::sets_case;
use crate::noninterference::{Ended, Pair};
use crate::parallel::lowest;
use crate::proved::Implementation;
use crate::sets::{
    members, set_check_words, set_run_agrees, set_run_words, show_set_check_words, show_set_run_words,
    SetCase, SetParts, SetRunWords,
};
use crate::vectors::join;
use oracle::answer::{RunAnswer, RunInput};
use oracle::claim;
use oracle::draft::Draft;
use oracle::entry::check_entry;
use oracle::machine::Machine;
use oracle::set::{self, ended, SetAnswer, SetRefusal};
use oracle::table::Routine;
use std::fmt::Write;

/// A longer run is held to what is claimed at so many points.
const POINTS: u64 = 2_000;

/// The run of an accepted set by the plain machine, step by step, or what a point breaks.
fn claimed(routines: &[Routine], input: &mut RunInput) -> Result<SetAnswer, String> {
    let last = routines.len() - 1;
    if let Err(refusal) = check_entry(&routines[last], &*input) {
        return Ok(SetRefusal { routine: last, refusal }.into());
    }
    let RunInput { directory, cells, values, origins, allowance } = input;
    let allowance = u64::from(*allowance);
    let mut machine = Machine::of_set(routines, directory, values, origins);
    for limit in (0..POINTS.min(allowance)).chain([allowance]) {
        let answer = machine.go(cells, limit);
        claim::broken(&machine, cells).map_or(Ok(()), Err)?;
        if limit == allowance || !matches!(answer, RunAnswer::Spent { .. }) {
            return Ok(ended(&machine, answer));
        }
    }
    unreachable!("the allowance is the last limit")
}

/// What differs on a set, in words; `None` where all agrees.
pub fn difference(parts: &SetParts, other: &dyn Implementation) -> Option<String> {
    Compared::new(parts, other).difference(parts.input.allowance)
}

/// How many limits are tried on a set, and on how many of the generated ones.
const LIMITS: u32 = 100;
const SAMPLE: u64 = 16;

/// What differs on a set where its run is given each limit from 0 to its end.
pub fn at_every_limit(parts: &SetParts, other: &dyn Implementation) -> Option<String> {
    let compared = Compared::new(parts, other);
    (0..=parts.input.allowance.min(LIMITS)).find_map(|limit| {
        let what = compared.difference(limit)?;
        Some(format!("with the limit {limit}: {what}"))
    })
}

/// A set, checked by both.
struct Compared<'a> {
    parts: &'a SetParts,
    other: &'a dyn Implementation,
    accepted: Result<Vec<Routine>, SetRefusal>,
    /// The check of the other.
    words: [u32; 4],
    pair: Option<Pair>,
}

impl<'a> Compared<'a> {
    fn new(parts: &'a SetParts, other: &'a dyn Implementation) -> Compared<'a> {
        let words = other.check_set(parts);
        let accepted = set::accept(&parts.members());
        let pair = accepted.as_ref().ok().and_then(|routines| Pair::new(routines, &parts.input));
        Compared { parts, other, accepted, words, pair }
    }

    fn lent(&self, input: &RunInput, allowance: u32) -> SetParts {
        let mut parts = SetParts { input: input.clone(), ..self.parts.clone() };
        parts.input.allowance = allowance;
        parts
    }

    fn difference(&self, allowance: u32) -> Option<String> {
        let right = set_check_words(&self.accepted.as_ref().map(|_| ()).map_err(|refusal| *refusal));
        if self.words != right {
            let [right, words] = [right, self.words].map(show_set_check_words);
            return Some(format!("check: {right} and {words}"));
        }
        let (mut ours, mut theirs) =
            (self.lent(&self.parts.input, allowance), self.lent(&self.parts.input, allowance));
        let right = match &self.accepted {
            Err(refusal) => SetAnswer::from(*refusal),
            Ok(routines) => match claimed(routines, &mut ours.input) {
                Err(broken) => return Some(broken),
                Ok(answer) => answer,
            },
        };
        let words = self.other.run_set(&mut theirs);
        if !set_run_agrees(&right, words) {
            return Some(format!("run: {right} and {}", show_set_run_words(words)));
        }
        // All buffers: what may not be written must be as it was.
        if ours != theirs {
            return Some("buffers after the run differ".to_string());
        }
        self.leak(words, &ours.input)
    }

    /// What a run lets out of cells out of reach, by a second run of the plain form and of the other; the first runs of
    /// the two have just ended alike.
    fn leak(&self, words: SetRunWords, after: &RunInput) -> Option<String> {
        let pair = self.pair.as_ref()?;
        let plain = |parts: &mut SetParts| {
            let SetParts { tables, lengths, input } = parts;
            set_run_words(&set::run(&members(tables, lengths), input))
        };
        let others = |parts: &mut SetParts| self.other.run_set(parts);
        type Run<'a> = &'a dyn Fn(&mut SetParts) -> SetRunWords;
        let forms: [(&str, Run); 2] = [("plain form", &plain), (self.other.name(), &others)];
        for (name, run) in forms {
            let mut second = self.lent(&pair.second, after.allowance);
            let answer = run(&mut second);
            let (first, second) =
                (Ended { answer: &words, after }, Ended { answer: &answer, after: &second.input });
            if let Some(what) = pair.leak(&self.parts.input.cells, first, second) {
                return Some(format!("{name}: {what}"));
            }
        }
        None
    }
}

/// The first difference among the sets from `first` on, as a report.
pub fn search(seed: u64, first: u64, count: u64, other: &dyn Implementation) -> Option<String> {
    let look = |number| {
        let found = sets_case(seed, number);
        let at_a_limit = if number % SAMPLE == 0 { at_every_limit(&found, other) } else { None };
        at_a_limit.or_else(|| difference(&found, other))
    };
    let (number, what) = lowest(first..first + count, look)?;
    let found = sets_case(seed, number);
    let mut text = String::new();
    let _ =
        writeln!(text, "difference: plain form and {}, sets of seed {seed}, number {number}", other.name());
    let _ = writeln!(text, "as found: {what}");
    let differs = |case: &SetCase| {
        let parts = SetParts::of(case);
        difference(&parts, other).or_else(|| at_every_limit(&parts, other))
    };
    if differs(&found.case()).is_none() {
        // Only with these lengths: no case of a vector file says it.
        return Some(format!("{text}{found:?}\n"));
    }
    let small = shrunk(found.case(), &|case| differs(case).is_some());
    let _ = writeln!(text, "made small: {}", differs(&small).unwrap_or_default());
    Some(text + &vector(&small))
}

/// Fewer routines and statements, a smaller allowance.
fn shrunk(mut best: SetCase, keeps: &dyn Fn(&SetCase) -> bool) -> SetCase {
    let offer = |best: &mut SetCase, smaller: Option<SetCase>| {
        let taken = smaller.filter(|smaller| smaller != best && keeps(smaller));
        let is_taken = taken.is_some();
        *best = taken.unwrap_or_else(|| best.clone());
        is_taken
    };
    loop {
        let before = best.clone();
        loop {
            let halved = with_allowance(&best, best.input.allowance / 2);
            if !offer(&mut best, Some(halved)) {
                break;
            }
        }
        for r in (0..best.tables.len()).rev() {
            let smaller = without_routine(&best, r);
            offer(&mut best, smaller);
        }
        for r in 0..best.tables.len() {
            let count = Draft::from_words(&best.tables[r]).map_or(0, |draft| draft.statements.len());
            for s in (0..count).rev() {
                for keep_blocks in [false, true] {
                    let smaller = without_statement(&best, r, s, keep_blocks);
                    offer(&mut best, smaller);
                }
            }
        }
        if best == before {
            return best;
        }
    }
}

fn with_allowance(case: &SetCase, allowance: u32) -> SetCase {
    SetCase { input: RunInput { allowance, ..case.input.clone() }, ..case.clone() }
}

fn without_statement(case: &SetCase, r: usize, s: usize, keep_blocks: bool) -> Option<SetCase> {
    let mut smaller = case.clone();
    let mut draft = Draft::from_words(&case.tables[r]).filter(|draft| s < draft.statements.len())?;
    draft.remove(s, keep_blocks);
    smaller.tables[r] = draft.words();
    Some(smaller)
}

/// Without a routine that lists no objects; calls of those behind it are counted anew.
fn without_routine(case: &SetCase, r: usize) -> Option<SetCase> {
    let mut smaller = case.clone();
    let removed = smaller.tables.remove(r);
    Draft::from_words(&removed).filter(|draft| draft.objects.is_empty())?;
    for table in &mut smaller.tables {
        let mut draft = Draft::from_words(table)?;
        for record in draft.statements.iter_mut().filter(|record| record[0] == 15 && record[1] > r as i32) {
            record[1] -= 1;
        }
        *table = draft.words();
    }
    Some(smaller)
}

/// A set in the format of the vector files, with the plain form's answers.
pub fn vector(case: &SetCase) -> String {
    let mut lines = vec!["kind: set".to_string(), format!("count: {}", case.tables.len())];
    lines.extend(case.tables.iter().map(|table| format!("table: {}", join(table))));
    let RunInput { directory, cells, values, origins, allowance } = &case.input;
    let lent = [("directory", directory), ("cells", cells), ("values", values), ("origins", origins)];
    lines.extend(lent.map(|(name, words)| format!("{name}: {}", join(words))));
    lines.push(format!("allowance: {allowance}"));
    let mut after = case.input.clone();
    let (checked, answer) = (set::check(&case.tables), set::run(&case.tables, &mut after));
    let answers = answer_lines(&set::show_check(&checked), &answer, &after);
    lines.extend(answers.into_iter().map(|line| format!("> {line}")));
    lines.iter().map(|line| format!("{}\n", line.trim_end())).collect::<String>() + "---\n"
}

/// The lines of an answer, with what the buffers then hold.
pub fn answer_lines(checked: &str, answer: &SetAnswer, after: &RunInput) -> Vec<String> {
    let mut lines = vec![checked.to_string(), answer.to_string()];
    if !matches!(answer.answer, RunAnswer::Refused(_)) {
        lines.push(format!("values: {}", join(&after.values)));
        lines.push(format!("cells: {}", join(&after.cells)));
    }
    lines.iter().map(|line| line.trim_end().to_string()).collect()
}

#[cfg(test)]
mod tests {
    use super::*;
    use crate::edits::{EditCase, Edited};
    use crate::proved::{Checked, Fast, RunWords};
    use crate::sets::SetCheckWords;
    use crate::turns::{Parts, TurnsWords};
    use crate::vectors;

    #[test]
    fn the_fast_form_agrees_with_the_plain_form() {
        assert_eq!(search(61, 0, 3_000, &Fast), None);
    }

    #[test]
    fn written_sets_read_back() {
        for number in 0..200 {
            let case = sets_case(62, number).case();
            let read = vectors::read(&vector(&case)).unwrap();
            assert_eq!(read[0].differences(), [""; 0], "number {number}");
        }
    }

    /// Wrong on purpose: some answer of the fast form is changed.
    struct Wrong {
        check: fn(SetCheckWords) -> SetCheckWords,
        run: fn(SetRunWords, &mut SetParts) -> SetRunWords,
    }

    impl Implementation for Wrong {
        fn name(&self) -> &'static str {
            "wrong"
        }

        fn check(&self, table: &[i32], facts: &[i32]) -> Checked {
            Fast.check(table, facts)
        }

        fn run(&self, table: &[i32], facts: &[i32], input: &mut RunInput) -> RunWords {
            Fast.run(table, facts, input)
        }

        fn dispatch(&self, parts: &mut Parts) -> TurnsWords {
            Fast.dispatch(parts)
        }

        fn edits(&self, case: &EditCase) -> Edited {
            Fast.edits(case)
        }

        fn check_set(&self, parts: &SetParts) -> SetCheckWords {
            (self.check)(Fast.check_set(parts))
        }

        fn run_set(&self, parts: &mut SetParts) -> SetRunWords {
            let words = Fast.run_set(parts);
            (self.run)(words, parts)
        }
    }

    #[test]
    fn a_wrong_check_is_found_and_the_report_is_small() {
        let lenient = |words: SetCheckWords| if words[0] == 20 { [0; 4] } else { words };
        let report =
            search(63, 0, 2_000, &Wrong { check: lenient, run: |words, _| words }).expect("a difference");
        assert!(report.contains("sets of seed 63") && report.contains("20"), "{report}");
        let case = report.split_once("kind:").map(|(_, rest)| format!("kind:{rest}")).expect("a case");
        assert!(vectors::read(&case).unwrap()[0].differences().is_empty());
        assert!(case.matches("table:").count() <= 3, "{report}");
    }

    #[test]
    fn a_wrong_run_is_found() {
        let found = |run| search(64, 0, 2_000, &Wrong { check: |words| words, run }).is_some();
        // Names another routine; leaves another value; reads a cell out of reach.
        assert!(found(|words, _| [words[0], words[1], words[2], words[3], 0]));
        assert!(found(|words, parts| {
            if let (1, Some(value)) = (words[0], parts.input.values.first_mut()) {
                *value ^= 1;
            }
            words
        }));
        assert!(found(|words, parts| {
            let large = parts.input.cells.first().is_some_and(|&cell| cell > u32::MAX - 100);
            [words[0], words[1].wrapping_add(u32::from(large && words[0] == 0)), words[2], words[3], words[4]]
        }));
    }
}
