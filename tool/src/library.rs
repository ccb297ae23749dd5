//! The proved library, called with what the tool holds: a set of tables and a list of loop facts.

use crate::table::Table;
use mizzengrape::{SetOutcome, SetVerdict};
use std::fmt;

pub use mizzengrape::{dispatch, Check, Edit, Outcome, Routine, Turns};

/// A refusal, and in a set the routine that is refused.
#[derive(Clone, Copy, Debug, PartialEq, Eq)]
pub struct Refusal {
    pub routine: Option<usize>,
    pub number: u32,
    pub place: usize,
    pub pointer: Option<usize>,
}

impl Refusal {
    /// A wrong number of routines, 15, is no routine's.
    pub fn of_set(routine: usize, refusal: mizzengrape::Refusal) -> Refusal {
        let routine = (refusal.number != 15).then_some(routine);
        Refusal { routine, ..Refusal::from(refusal) }
    }
}

impl From<mizzengrape::Refusal> for Refusal {
    fn from(refusal: mizzengrape::Refusal) -> Refusal {
        Refusal {
            routine: None,
            number: refusal.number,
            place: refusal.place as usize,
            pointer: refusal.pointer.map(|p| p as usize),
        }
    }
}

impl fmt::Display for Refusal {
    fn fmt(&self, f: &mut fmt::Formatter) -> fmt::Result {
        write!(f, "refused")?;
        if let Some(routine) = self.routine {
            write!(f, " routine {routine}")?;
        }
        write!(f, " {} {}", self.number, self.place)?;
        self.pointer.map_or(Ok(()), |pointer| write!(f, " {pointer}"))
    }
}

#[derive(Clone, Copy, Debug, PartialEq, Eq)]
pub enum Verdict {
    Accepted,
    Refused(Refusal),
}

impl From<mizzengrape::Verdict> for Verdict {
    fn from(verdict: mizzengrape::Verdict) -> Verdict {
        match verdict {
            mizzengrape::Verdict::Accepted => Verdict::Accepted,
            mizzengrape::Verdict::Refused(refusal) => Verdict::Refused(refusal.into()),
        }
    }
}

impl fmt::Display for Verdict {
    fn fmt(&self, f: &mut fmt::Formatter) -> fmt::Result {
        match self {
            Verdict::Accepted => write!(f, "accepted"),
            Verdict::Refused(refusal) => refusal.fmt(f),
        }
    }
}

/// A verdict, and of an accepted routine its report: the statements of the accesses that stop no run at check 2 or 3, ascending.
#[derive(Clone, Debug, PartialEq, Eq)]
pub struct Checked {
    pub verdict: Verdict,
    pub safe: Vec<u32>,
}

/// What a run is lent besides the routine.
#[derive(Clone, Debug, Default, PartialEq, Eq)]
pub struct Lent {
    pub directory: Vec<u32>,
    pub cells: Vec<u32>,
    pub values: Vec<u32>,
    pub origins: Vec<u32>,
    pub allowance: u32,
}

/// How a run ended, and of a set the routine that is meant: of a spent or stopped run the one whose statement is due, of a refused one the
/// routine refused.
#[derive(Clone, Copy, Debug, PartialEq, Eq)]
pub struct Ended {
    pub outcome: Outcome,
    pub routine: Option<usize>,
}

impl From<Outcome> for Ended {
    fn from(outcome: Outcome) -> Ended {
        Ended { outcome, routine: None }
    }
}

impl fmt::Display for Ended {
    fn fmt(&self, f: &mut fmt::Formatter) -> fmt::Result {
        let Some(routine) = self.routine else { return self.outcome.fmt(f) };
        match self.outcome {
            Outcome::Done { .. } => self.outcome.fmt(f),
            Outcome::Spent { steps, statement } => write!(f, "spent {steps} {routine} {statement}"),
            Outcome::Stopped { steps, statement, check } => {
                write!(f, "stopped {steps} {routine} {statement} {}", check.number())
            }
            Outcome::Refused(refusal) => Refusal::of_set(routine, refusal).fmt(f),
        }
    }
}

/// The steps of a run; a refused one has none.
pub fn steps(outcome: &Outcome) -> u32 {
    match *outcome {
        Outcome::Done { steps } | Outcome::Spent { steps, .. } | Outcome::Stopped { steps, .. } => steps,
        Outcome::Refused(_) => 0,
    }
}

/// What this library cannot be asked, in words.
pub type Asked<T> = Result<T, &'static str>;

pub fn check(tables: &[Vec<i32>], facts: &[i32]) -> Asked<Checked> {
    match tables {
        [table] => Ok(check_table(table, facts)),
        tables => Ok(Checked { verdict: check_set(tables)?, safe: Vec::new() }),
    }
}

/// The check of a set, which has no loop facts and no report.
fn check_set(tables: &[Vec<i32>]) -> Asked<Verdict> {
    Ok(match mizzengrape::check_set(&slices(tables)) {
        SetVerdict::Accepted => Verdict::Accepted,
        SetVerdict::Refused { routine, refusal } => {
            Verdict::Refused(Refusal::of_set(routine as usize, refusal))
        }
    })
}

fn slices(tables: &[Vec<i32>]) -> Vec<&[i32]> {
    tables.iter().map(Vec::as_slice).collect()
}

/// The check of one routine with its list of loop facts.
pub fn check_table(table: &[i32], facts: &[i32]) -> Checked {
    let (verdict, safe) = mizzengrape::check_with_facts(table, facts);
    Checked { verdict: verdict.into(), safe }
}

/// A routine without loop facts that is edited one statement outside of all blocks at a time, with the verdict on it each time.
pub struct Editor(mizzengrape::Editor);

impl Editor {
    /// None where the table is refused by its form (1 to 6).
    pub fn start(table: &[i32], places: usize, keep: &[u32]) -> Option<(Editor, Verdict)> {
        let (editor, walked) = mizzengrape::Editor::start(table, places, keep).ok()?;
        Some((Editor(editor), walked.verdict.into()))
    }

    /// None where the edit is refused: then nothing is changed.
    pub fn edit(&mut self, edit: Edit, position: u32, keep: &[u32]) -> Option<Verdict> {
        self.0.edit(edit, position, keep).ok().map(|walked| walked.verdict.into())
    }

    pub fn table(&self) -> &[i32] {
        self.0.table()
    }
}

/// The first refusal by causes 1 to 6: where there is none, the tables have a text.
pub fn form_refusal(tables: &[Vec<i32>]) -> Option<Refusal> {
    let refusal = |(number, table): (usize, &Vec<i32>)| {
        let routine = (tables.len() > 1).then_some(number);
        let alone = refused_form(table).map(|refusal| Refusal { routine, ..refusal });
        if number == 0 || alone.is_some_and(|refusal| refusal.number <= 2) {
            return alone;
        }
        // Behind routine 0 a table has that one's objects, and lists none.
        let (Ok(first), Ok(own)) = (Table::split(&tables[0]), Table::split(table)) else { return alone };
        if !own.objects.is_empty() {
            return Some(Refusal { routine, number: 3, place: 0, pointer: None });
        }
        let whole = Table { objects: first.objects, ..own };
        refused_form(&whole.words()).map(|refusal| Refusal { routine, ..refusal })
    };
    tables.iter().enumerate().find_map(refusal)
}

/// The refusal of one table by causes 1 to 6.
fn refused_form(table: &[i32]) -> Option<Refusal> {
    match mizzengrape::check(table) {
        mizzengrape::Verdict::Refused(refusal) if refusal.number <= 6 => Some(refusal.into()),
        _ => None,
    }
}

/// A run; cells and values then hold what it left.
pub fn run(tables: &[Vec<i32>], facts: &[i32], lent: &mut Lent) -> Asked<Ended> {
    let [table] = tables else { return run_set(tables, lent) };
    let Lent { directory, cells, values, origins, allowance } = lent;
    let run = mizzengrape::run_with_facts(table, facts, directory, cells, values, origins, *allowance);
    Ok(run.into())
}

/// A run of a set, which begins in its last routine.
fn run_set(tables: &[Vec<i32>], lent: &mut Lent) -> Asked<Ended> {
    let Lent { directory, cells, values, origins, allowance } = lent;
    let mut lent = mizzengrape::Lent { directory, cells, values, origins };
    let SetOutcome { routine, outcome } = mizzengrape::run_set(&slices(tables), &mut lent, *allowance);
    Ok(Ended { outcome, routine: Some(routine as usize) })
}

/// A routine of several that run in turn: what it is lent beside the memory. Its values then hold what its turns left.
pub fn routine<'a>(tables: &'a [Vec<i32>], facts: &'a [i32], lent: &'a mut Lent) -> Asked<Routine<'a>> {
    let [table] = tables else { return Err("a set has no turns: routines in turn are each by themselves") };
    let Lent { directory, values, origins, .. } = lent;
    Ok(Routine { table, facts, directory, values, origins })
}
