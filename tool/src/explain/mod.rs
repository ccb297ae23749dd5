//! Why a routine is refused, at its line. The library decides; the second implementation's walk explains.

mod advice;
mod bounds;
pub mod bundle;
mod calls;
mod context;
mod draft;
pub mod drawing;
mod entry;
mod facts;
mod form;
mod listed;
mod lost;
mod narrow;
mod order;
pub mod pages;
mod replay;
mod report;
mod rows;
mod second;
mod state;
pub mod stops;
mod trial;
pub mod turns;
mod values;
mod walk;
mod ways;

use crate::diagnostics::{Pos, Source};
use crate::image::Image;
use crate::library::{self, steps, Asked, Ended, Lent, Outcome, Refusal, Verdict};
use crate::map::RoutineMap;
use crate::printer::Printer;
use crate::program::{Program, Text};
use crate::repair::Repair;
use crate::rows::InForce;
use context::Context;
use draft::Draft;
pub use narrow::declare_known;
use oracle::answer::RunInput;
use oracle::checker::Value;
use oracle::frame::Frame;
pub use replay::{said, same_end, Replay};
pub use report::{access, report};
use second::Second;
pub use state::state;
pub use trial::progress;

/// A refusal in words.
#[derive(Debug, Default)]
pub struct Explanation {
    /// Where in the text, if there is one.
    pub at: Option<Pos>,
    /// The number of the refusal.
    pub number: u32,
    /// `the bounds of ..`.
    pub sentence: String,
    pub notes: Vec<Note>,
    /// Empty until it is asked for: each help takes several walks.
    pub help: Vec<Help>,
}

/// What is said beside a refusal, some of it at a position of its own.
#[derive(Debug)]
pub struct Note {
    pub at: Option<Pos>,
    pub message: String,
}

impl Note {
    fn new(message: String) -> Note {
        Note { at: None, message }
    }
}

/// What would repair a routine: for people, and as a change of the text where there is one.
#[derive(Debug)]
pub struct Help {
    pub message: String,
    pub repair: Option<Repair>,
}

impl Explanation {
    pub fn show(&self, program: &Program, short: bool) -> String {
        self.show_in(&program.name, program.source(), short)
    }

    /// The same at the line of another file, an image.
    pub fn show_in(&self, name: &str, source: Option<Source>, short: bool) -> String {
        let what = format!("error: {}", self.message());
        let mut shown = match (self.at, source) {
            (Some(at), Some(source)) => source.show(at, &what, short),
            _ => format!("{name}: {what}\n"),
        };
        if short {
            return shown;
        }
        for Note { at, message } in &self.notes {
            let place = at.map_or_else(String::new, |at| format!("{name}:{at}: "));
            shown.push_str(&format!("{place}note: {message}\n"));
        }
        for help in &self.help {
            shown.push_str(&format!("help: {}\n", help.message));
        }
        shown
    }

    /// `refused 8: the bounds of ..`.
    pub fn message(&self) -> String {
        format!("refused {}: {}", self.number, self.sentence)
    }

    fn new(at: Option<Pos>, sentence: String) -> Explanation {
        Explanation { at, sentence, ..Explanation::default() }
    }

    fn numbered(self, refusal: &Refusal) -> Explanation {
        Explanation { number: refusal.number, ..self }
    }
}

/// One routine of a text: how its parts are printed and where they stand.
pub struct Place<'a> {
    pub printer: Printer<'a>,
    map: &'a RoutineMap,
    context: Context,
}

impl<'a> Place<'a> {
    pub fn new(program: &'a Program, text: &'a Text, routine: usize) -> Option<Place<'a>> {
        let map = text.map.routines.get(routine)?;
        let context = Context::of(program, routine)?;
        Some(Place { printer: Printer::new(&text.parts, &program.facts, &text.names, routine), map, context })
    }

    pub fn statement(&self, s: usize) -> Option<Pos> {
        self.map.statements.get(s).copied()
    }

    /// Where an entry of the list of loop facts stands.
    fn entry(&self, number: usize) -> Option<Pos> {
        self.map.facts.get(number).copied()
    }

    /// Where a pointer's bounds in force are declared: at a where statement, or at its declaration.
    fn declaration(&self, rows: &InForce, pointer: usize) -> Option<Pos> {
        let at_where = rows.statement(pointer).and_then(|s| self.statement(s));
        at_where.or_else(|| self.map.variables.get(pointer).copied())
    }

    /// The bounds in force of a pointer.
    fn in_force(&self, rows: &InForce, pointer: usize) -> String {
        self.printer.bounds(pointer as i32, rows.bounds(self.printer.table, pointer))
    }

    /// A known end whose integer counts so many cells.
    fn end(&self, end: Value, size: i64) -> String {
        let integer = end.integer.map_or(-1, i32::from);
        self.printer.end([i32::from(end.pointer), integer], end.constant, size as i32)
    }

    /// `line 8`; of a statement that has no line, its number.
    fn line(&self, s: usize) -> String {
        self.statement(s).map_or_else(|| format!("statement {s}"), |at| format!("line {}", at.line))
    }

    /// `line 8: rows = rows + 1`.
    fn line_and_text(&self, s: usize) -> String {
        format!("{}: {}", self.line(s), self.printer.statement(s))
    }
}

/// The library's verdict on a program, and what is said of it.
#[derive(Debug)]
pub struct Checked {
    pub verdict: Verdict,
    /// Of an accepted routine the statements of the accesses that stop no run at check 2 or 3, ascending; none where only a verdict was asked for.
    pub safe: Option<Vec<u32>>,
    /// The second implementation's verdict, where that is another one: then nothing is explained.
    pub other: Option<String>,
    /// The reason for a refusal.
    pub reason: Option<Explanation>,
}

pub fn check(program: &Program) -> Asked<Checked> {
    let library::Checked { verdict, safe } = library::check(&program.tables, &program.facts)?;
    Ok(explained(program, verdict, Some(safe)))
}

/// What is said of the library's verdict on a program, and of its report where it was asked for.
pub fn explained(program: &Program, verdict: Verdict, safe: Option<Vec<u32>>) -> Checked {
    let second = Second::of(program, &verdict);
    let other = second.other_verdict(&verdict, safe.as_deref());
    let reason = match &verdict {
        Verdict::Refused(refusal) if other.is_none() => Some(second.explain(program, refusal)),
        _ => None,
    };
    Checked { verdict, safe, other, reason }
}

impl Checked {
    /// The reported accesses.
    pub fn safe(&self) -> &[u32] {
        self.safe.as_deref().unwrap_or_default()
    }

    /// `safe: 4 7`, where there are some.
    pub fn safe_line(&self) -> Option<String> {
        let listed: String = self.safe().iter().map(|statement| format!(" {statement}")).collect();
        (!listed.is_empty()).then(|| format!("safe:{listed}"))
    }
}

/// What would repair a refused program, tried out.
pub fn help(program: &Program, refusal: &Refusal) -> Vec<Help> {
    let routine = refusal.routine.unwrap_or(0);
    let Some(place) = program.text.as_ref().and_then(|text| Place::new(program, text, routine)) else {
        return Vec::new();
    };
    let help = match refusal.number {
        8 => for_bounds(program, &place, refusal),
        9 => {
            let seen = Draft::of(&place).walk(None);
            order::moved_access(
                program,
                &place,
                bounds::changed_before_access(&place, &seen, refusal),
                refusal,
            )
        }
        13 => rows::help(program, &place, refusal),
        17 => advice::for_entry(&place, refusal.place),
        20 => calls::help(program, &place, refusal),
        _ => None,
    };
    help.map(advice::saying_stops).into_iter().collect()
}

/// What would show the bounds. What keeps every run as it is comes before checks, which stop some.
fn for_bounds(program: &Program, place: &Place, refusal: &Refusal) -> Option<Help> {
    let refused = refusal.place;
    let bundled = || advice::bundled(place, refused);
    let tried = |helps: Vec<Help>| trial::first_that_helps(program, refusal, helps.into_iter());
    let (recounted, checked) = ways::recounted(place, refused).unzip();
    // Bounds that follow a pointer come before checks, and other bounds that are known where nothing else helps.
    let known = || declare_known(program, refusal).filter(narrow::is_unchecked);
    let follows = || known().filter(|_| narrow::gives_address(place, refused));
    let declared = || known().and_then(|help| tried(vec![help]));
    bundled()
        .or_else(|| tried(ways::joined(place, refused)))
        .or_else(|| tried(ways::stepped(place, refused)))
        .or_else(|| tried(recounted.into_iter().collect()))
        .or_else(|| follows().and_then(|help| tried(vec![help])))
        .or_else(|| tried(ways::kept(place, refused)))
        .or_else(|| advice::checked(place, refused))
        .or_else(|| tried(checked.flatten().into_iter().collect()))
        .or_else(declared)
}

/// The reason for a refusal by the form of a table, which takes no walk.
pub fn refused_form(program: &Program, refusal: &Refusal) -> Explanation {
    form::explain(program, refusal).numbered(refusal)
}

/// The refusal of a run by what it was lent, at the image's line.
pub fn refused_entry(text: &Text, image: &Image, refusal: &Refusal) -> Explanation {
    entry::explain(text, image, refusal).numbered(refusal)
}

/// Longer runs are not run a second time.
const MOST_COMPARED: u32 = 10_000_000;

/// A run as the second implementation makes it.
#[derive(Debug, Default)]
pub struct SecondRun {
    /// How it ends, where that is another end than the proved one or leaves other values or cells.
    pub other: Option<String>,
    /// The routines at work at its end, the last one running: their values, and where their pointers belong. None where it was not made.
    pub frames: Vec<Frame>,
}

pub fn second_run(
    (tables, facts): (&[Vec<i32>], &[i32]),
    lent: &Lent,
    ended: &Ended,
    left: &Lent,
) -> SecondRun {
    if steps(&ended.outcome) > MOST_COMPARED {
        return SecondRun::default();
    }
    let replay = Replay::new(tables, facts, lent).filter(|_| !matches!(ended.outcome, Outcome::Refused(_)));
    let Some(mut replay) = replay else {
        let Lent { directory, cells, values, origins, allowance } = lent.clone();
        let mut input = RunInput { directory, cells, values, origins, allowance };
        let answer = match tables {
            [table] => oracle::machine::run_with_facts(table, facts, &mut input).to_string(),
            tables => oracle::set::run(tables, &mut input).to_string(),
        };
        return SecondRun { other: (answer != ended.to_string()).then_some(answer), frames: Vec::new() };
    };
    let (mut machine, cells) = replay.begin();
    let answer = machine.go(cells, u64::from(lent.allowance));
    let said = said(&machine, answer, tables.len() > 1);
    let same = same_end(&said, machine.values(), cells, ended, left);
    SecondRun { other: (!same).then_some(said), frames: machine.frames().to_vec() }
}

#[cfg(test)]
mod tests {
    use super::*;

    /// A library that ends a run otherwise than the second implementation is found out.
    #[test]
    fn differences_are_seen() {
        let table = [6, 0, 6, 8, 14, 7, 0, 0, 0, 0, 0, 0, 0, 0, 1, 0, 5, 0, 0, 0, 0];
        let lent =
            Lent { cells: vec![0], values: vec![1], origins: vec![0], allowance: 9, ..Lent::default() };
        let left = Lent { values: vec![5], ..lent.clone() };
        let tables = [table.to_vec()];
        let done = |steps| Ended { outcome: Outcome::Done { steps }, routine: None };
        let other = |steps, left| second_run((&tables, &[]), &lent, &done(steps), left).other;
        assert_eq!(other(1, &left), None);
        assert_eq!(other(1, &lent), Some("done 1".to_string()));
        assert_eq!(other(2, &left), Some("done 1".to_string()));
    }
}
