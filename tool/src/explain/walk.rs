//! The second implementation's walk over a routine, looked on: what is known where it ends, and which statement moved or lost each end.

use super::context::Context;
use crate::rows::InForce;
use crate::table::Table;
use oracle::answer::CheckAnswer;
use oracle::checker::{Asked, Known, KnownBounds, KnownEnd, Observer, Rows};
use oracle::facts::Facts;
use oracle::loop_facts::{Entry, LoopFacts};

/// What is known before or after a statement.
#[derive(Clone, Debug)]
pub struct Moment {
    pub statement: usize,
    /// Whether the statement is behind, with its blocks.
    is_after: bool,
    pub facts: Facts,
    pub known: Known,
    /// For each variable the statements that changed its known lower and upper end since they were the declared ones.
    pub changed: Vec<[Option<usize>; 2]>,
}

impl Moment {
    /// The rows in force at that moment; behind a kind 14 its own row is.
    pub fn rows(&self, table: &Table) -> InForce {
        let (s, rows) = (self.statement, InForce::before(table, self.statement));
        if self.is_after {
            rows.after(table, s, s + table.extent(s))
        } else {
            rows
        }
    }
}

/// What was seen of a walk, up to its end or up to its refusal.
#[derive(Debug)]
pub struct Walk {
    pub answer: CheckAnswer,
    pub before: Option<Moment>,
    pub after: Option<Moment>,
    /// The moment before the statement that was asked for, if the walk came to it.
    pub asked: Option<Moment>,
    /// The entry of the list that was not shown at its loop.
    pub unshown: Option<Unshown>,
}

impl Walk {
    /// A walk of which nothing is known but how it ended.
    pub fn unseen(answer: CheckAnswer) -> Walk {
        Walk { answer, before: None, after: None, asked: None, unshown: None }
    }
}

/// An entry of the list of loop facts that is not shown, where, and what is known there.
#[derive(Debug)]
pub struct Unshown {
    pub entry: Entry,
    pub asked: Asked,
    pub facts: Facts,
}

/// Walks a table with its list, by itself or in its set; `asked` is a statement of interest.
pub fn walk(context: &Context, words: &[i32], facts: &[i32], asked: Option<usize>) -> Walk {
    let read = context.decode(words).and_then(|routine| Ok((LoopFacts::read(&routine, facts)?, routine)));
    let (loop_facts, routine) = match read {
        Ok(read) => read,
        Err(refusal) => return Walk::unseen(Err(refusal)),
    };
    let bundles = routine.statements.iter().map(|s| matches!(s, oracle::syntax::Statement::Bundle { .. }));
    let mut recorder = Recorder {
        bundles: bundles.collect(),
        bundle_end: 0,
        sizes: routine.statements.iter().map(|s| s.size()).collect(),
        changed: vec![[None; 2]; routine.kinds.len()],
        wanted: asked,
        before: None,
        after: None,
        asked: None,
        unshown: None,
    };
    let answer = context.watch(&routine, &loop_facts, &mut recorder);
    let Recorder { before, after, asked, unshown, .. } = recorder;
    Walk { answer, before, after, asked, unshown }
}

struct Recorder {
    bundles: Vec<bool>,
    sizes: Vec<usize>,
    /// Up to here a bundle goes on: only outside of one the known bounds are the declared ones again.
    bundle_end: usize,
    changed: Vec<[Option<usize>; 2]>,
    wanted: Option<usize>,
    before: Option<Moment>,
    after: Option<Moment>,
    asked: Option<Moment>,
    unshown: Option<Unshown>,
}

impl Recorder {
    fn moment(&self, statement: usize, is_after: bool, facts: &Facts, known: &Known) -> Moment {
        let (facts, known, changed) = (facts.clone(), known.clone(), self.changed.clone());
        Moment { statement, is_after, facts, known, changed }
    }

    /// Which ends a statement changed.
    fn compare(&mut self, statement: usize, known: &Known) {
        let Some(before) = self.before.as_ref().filter(|before| before.statement == statement) else {
            return;
        };
        for (v, changed) in self.changed.iter_mut().enumerate() {
            // An end without an integer is the same whatever its size.
            let sized = |end: KnownEnd, size| (end, end.and_then(|end| end.integer).map(|_| size));
            let ends = |bounds: Option<KnownBounds>| {
                bounds.map(|KnownBounds { size, lower, upper }| [sized(lower, size), sized(upper, size)])
            };
            let (Some(old), Some(new)) = (ends(before.known.of(v)), ends(known.of(v))) else { continue };
            for side in 0..2 {
                if old[side] != new[side] {
                    changed[side] = Some(statement);
                }
            }
        }
    }
}

impl Observer for Recorder {
    fn before(&mut self, statement: usize, facts: &Facts, _: &Rows, known: &Known) {
        if statement >= self.bundle_end {
            self.changed.fill([None; 2]);
        }
        if self.bundles[statement] {
            self.bundle_end = statement + self.sizes[statement];
        }
        let moment = self.moment(statement, false, facts, known);
        if self.wanted == Some(statement) {
            self.asked = Some(moment.clone());
        }
        self.before = Some(moment);
    }

    fn after(&mut self, statement: usize, facts: &Facts, _: &Rows, known: &Known) {
        if !self.bundles[statement] {
            self.compare(statement, known);
        }
        self.after = Some(self.moment(statement, true, facts, known));
    }

    fn unshown(&mut self, _: usize, entry: Entry, asked: Asked, facts: &Facts) {
        self.unshown = Some(Unshown { entry, asked, facts: facts.clone() });
    }
}
