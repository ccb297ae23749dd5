//! Which statement lost a fact: the last one after which it was not known any more.

use super::draft::Draft;
use super::Place;
use oracle::checker::{Known, Observer, Rows};
use oracle::facts::{Facts, Node};
use oracle::loop_facts::LoopFacts;

/// x <= y + k.
#[derive(Clone, Copy, Debug)]
pub struct Fact {
    pub x: Node,
    pub y: Node,
    pub k: i64,
}

/// The statement of a routine that lost a fact, by the walk up to its end or its refusal; none where the fact was never known or is
/// known at the end.
pub fn lost_at(draft: &Draft, fact: Fact) -> Option<usize> {
    let routine = draft.context.decode(&draft.table.words()).ok()?;
    let loop_facts = LoopFacts::read(&routine, &draft.facts).ok()?;
    let sizes = routine.statements.iter().map(|statement| statement.size()).collect();
    let mut watcher = Watcher { fact, sizes, is_known: false, last: 0, lost: None };
    let _ = draft.context.watch(&routine, &loop_facts, &mut watcher);
    watcher.lost.filter(|_| !watcher.is_known)
}

struct Watcher {
    fact: Fact,
    /// How many statements each one takes with its blocks.
    sizes: Vec<usize>,
    is_known: bool,
    /// The statement seen last.
    last: usize,
    lost: Option<usize>,
}

impl Watcher {
    /// What is known now, and the statement that is to blame where the fact is gone.
    fn see(&mut self, facts: &Facts, statement: usize) {
        let Fact { x, y, k } = self.fact;
        let is_known = facts.shows(x, y, k);
        if self.is_known && !is_known {
            self.lost = Some(statement);
        }
        self.is_known = is_known;
    }
}

impl Observer for Watcher {
    fn before(&mut self, statement: usize, facts: &Facts, _: &Rows, _: &Known) {
        // Between a head and its block nothing but the head can lose a fact: a while drops what its body assigns.
        self.see(facts, self.last);
        self.last = statement;
    }

    fn after(&mut self, statement: usize, facts: &Facts, _: &Rows, _: &Known) {
        let inside = statement + 1..statement + self.sizes[statement];
        let by = self.lost.filter(|lost| inside.contains(lost)).unwrap_or(statement);
        self.see(facts, by);
    }
}

/// `it was known up to line 8: i = x`; of a loop what it assigns.
pub fn note(place: &Place, s: usize) -> String {
    let printer = &place.printer;
    if printer.table.statements[s][0] != 12 {
        return format!("it was known up to {}", place.line_and_text(s));
    }
    let assigned = printer.table.assigned(s);
    let names: Vec<&str> = assigned.iter().map(|&variable| printer.name(variable)).collect();
    format!("it was known up to {}; the loop assigns {}", place.line(s), joined(&names))
}

/// `a`, `a and b`, `a, b and c`.
pub fn joined(names: &[&str]) -> String {
    match names {
        [] => "nothing".to_string(),
        [one] => one.to_string(),
        [first @ .., last] => format!("{} and {last}", first.join(", ")),
    }
}
