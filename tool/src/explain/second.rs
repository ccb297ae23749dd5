//! The second implementation beside the library: whether its verdict is the same, and what it saw on the way to a refusal.

use super::context::Context;
use super::walk::{self, Walk};
use super::{bounds, calls, form, listed, rows, Explanation, Place};
use crate::diagnostics::Pos;
use crate::library::{Refusal, Verdict};
use crate::program::Program;
use oracle::answer::{show_check, CheckAnswer};

/// The second implementation's view of a program: its verdict, and what it saw on the way to a refusal.
pub struct Second {
    routine: usize,
    /// What it answers: of a set as the library prints it.
    answer: Answer,
    /// None where it did not come to the routine that the library refuses.
    seen: Option<Walk>,
    /// The accesses that it reports.
    safe: Vec<u32>,
}

enum Answer {
    Alone(CheckAnswer),
    OfSet(String),
}

impl Second {
    /// Walks the routine that the library refuses, or the only one.
    pub fn of(program: &Program, verdict: &Verdict) -> Second {
        let routine = match verdict {
            Verdict::Refused(refusal) => refusal.routine.unwrap_or(0),
            Verdict::Accepted => 0,
        };
        let [table] = &program.tables[..] else { return Second::of_set(program, routine, verdict) };
        // One walk is enough: an accepted routine's report is compared, a refused one's reason is looked for.
        let (seen, safe) = match verdict {
            Verdict::Accepted => match oracle::report::accept(table, &program.facts) {
                Ok(accepted) => (Walk::unseen(Ok(())), accepted.report),
                Err(refusal) => (Walk::unseen(Err(refusal)), Vec::new()),
            },
            Verdict::Refused(_) => (walk::walk(&Context::default(), table, &program.facts, None), Vec::new()),
        };
        Second { routine, answer: Answer::Alone(seen.answer), seen: Some(seen), safe }
    }

    /// Walks all routines of a set, the refused one looked on.
    fn of_set(program: &Program, routine: usize, verdict: &Verdict) -> Second {
        let answer = Answer::OfSet(oracle::set::show_check(&oracle::set::check(&program.tables)));
        let refused = matches!(verdict, Verdict::Refused(_)).then(|| program.tables.get(routine)).flatten();
        let seen = refused.and_then(|table| {
            let context = Context::of(program, routine)?;
            Some(walk::walk(&context, table, &[], None))
        });
        Second { routine, answer, seen, safe: Vec::new() }
    }

    /// Its verdict and report, where they are others than the proved ones.
    pub fn other_verdict(&self, verdict: &Verdict, safe: Option<&[u32]>) -> Option<String> {
        let same = match &self.answer {
            Answer::Alone(answer) => agree(verdict, answer) && safe.is_none_or(|safe| safe == self.safe),
            Answer::OfSet(answer) => verdict.to_string() == *answer,
        };
        (!same).then(|| match &self.answer {
            Answer::Alone(answer) => format!("{}, safe: {:?}", show_check(answer), self.safe),
            Answer::OfSet(answer) => answer.clone(),
        })
    }

    /// The reason for a refusal.
    pub fn explain(&self, program: &Program, refusal: &Refusal) -> Explanation {
        let explanation = match refusal.number {
            1..=6 => form::explain(program, refusal),
            15 => form::too_many_routines(program),
            17 if self.seen.as_ref().is_none_or(|seen| seen.unshown.is_none()) => {
                listed::form(program, refusal).unwrap_or_default()
            }
            number => self.walked(program, refusal).unwrap_or_else(|| unexplained(None, number)),
        };
        explanation.numbered(refusal)
    }

    /// Refusals that the walk finds.
    fn walked(&self, program: &Program, refusal: &Refusal) -> Option<Explanation> {
        let place = Place::new(program, program.text.as_ref()?, self.routine)?;
        let seen = self.seen.as_ref()?;
        Some(match refusal.number {
            8 => bounds::not_shown(&place, seen, refusal),
            9 => bounds::not_shown_for_access(&place, seen, refusal),
            13 => rows::differ(&place, refusal),
            17 => listed::not_shown(&place, seen, refusal)?,
            19 => calls::no_callee(program, &place, refusal),
            20 => calls::not_fitting(program, &place, seen, refusal)?,
            number => unexplained(place.statement(refusal.place), number),
        })
    }
}

/// Where there is no text that could be quoted, or nothing to say of it.
fn unexplained(at: Option<Pos>, number: u32) -> Explanation {
    Explanation::new(at, format!("`mizzengrape explain {number}` tells what it means"))
}

fn agree(verdict: &Verdict, answer: &CheckAnswer) -> bool {
    match (verdict, answer) {
        (Verdict::Accepted, Ok(())) => true,
        (Verdict::Refused(ours), Err(other)) => {
            let (number, place) = (u32::from(other.cause), other.place as usize);
            (ours.number, ours.place, ours.pointer) == (number, place, other.pointer.map(usize::from))
        }
        _ => false,
    }
}

#[cfg(test)]
mod tests {
    use super::*;
    use oracle::answer;

    /// A library that answers something else than the second implementation is found out.
    #[test]
    fn differences_are_seen() {
        let refused =
            |number, place, pointer| Verdict::Refused(Refusal { routine: None, number, place, pointer });
        let lost = Err(answer::Refusal::bounds(3, 1));
        assert!(agree(&refused(8, 3, Some(1)), &lost) && !agree(&refused(8, 3, Some(0)), &lost));
        assert!(!agree(&refused(8, 2, Some(1)), &lost));
        assert!(!agree(&refused(9, 3, None), &lost) && !agree(&Verdict::Accepted, &lost));
        assert!(agree(&Verdict::Accepted, &Ok(())) && !agree(&refused(7, 0, None), &Ok(())));
    }
}
