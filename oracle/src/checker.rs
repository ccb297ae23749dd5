//! The checker in its plain form: the walk, refusals 8, 9, 13, 19, 20 and what 17 finds on the way.

use crate::answer::{CheckAnswer, Refusal};
pub use crate::bounds::{Known, KnownBounds, KnownEnd, Value};
use crate::calls::fault;
use crate::facts::{Facts, Node, GREATEST, ZERO};
use crate::loop_facts::{Entry, LoopFacts};
pub use crate::rows::Rows;
use crate::table::{decode, Call, Condition, Routine, Statement, Var};

/// Causes 1 to 9 and 13 of a table without a list of loop facts.
pub fn check(words: &[i32]) -> CheckAnswer {
    check_routine(&decode(words)?)
}

/// Causes 8, 9 and 13 of a decoded routine.
pub fn check_routine(routine: &Routine) -> CheckAnswer {
    watch(routine, &mut ()).map(|_| ())
}

/// The walk over a decoded routine with somebody who looks on; gives the facts after it.
pub fn watch(routine: &Routine, observer: &mut dyn Observer) -> Result<Facts, Refusal> {
    watch_with_facts(routine, &LoopFacts::default(), observer)
}

/// The same with a list of loop facts.
pub fn watch_with_facts(
    routine: &Routine,
    loop_facts: &LoopFacts,
    observer: &mut dyn Observer,
) -> Result<Facts, Refusal> {
    // "a routine by itself is number 0"
    walk_from_entry(Walker { routine, callees: &[], loop_facts, observer })
}

/// The walk over a routine of a set, where these are the routines before it.
pub fn watch_in_set(
    routine: &Routine,
    callees: &[Routine],
    observer: &mut dyn Observer,
) -> Result<Facts, Refusal> {
    walk_from_entry(Walker { routine, callees, loop_facts: &LoopFacts::default(), observer })
}

fn walk_from_entry(mut walker: Walker) -> Result<Facts, Refusal> {
    let routine = walker.routine;
    let state = State { facts: Facts::new(&routine.kinds), rows: Rows::at_entry(routine) };
    let end = walker.block(0, routine.statements.len(), state)?;
    Ok(end.facts)
}

/// Where the entries of a loop are asked for.
#[derive(Clone, Copy, Debug, PartialEq, Eq)]
pub enum Asked {
    BeforeLoop,
    AtBodyEnd,
}

/// Looks on while the walk goes, and changes nothing.
pub trait Observer {
    /// What is known before a statement, and the rows in force there.
    fn before(&mut self, _statement: usize, _facts: &Facts, _rows: &Rows, _known: &Known) {}

    /// What is known after a statement with its blocks, when its declared bounds are asked for.
    fn after(&mut self, _statement: usize, _facts: &Facts, _rows: &Rows, _known: &Known) {}

    /// An entry of the list, by its number, that these facts do not show at its loop: refusal 17.
    fn unshown(&mut self, _number: usize, _entry: Entry, _asked: Asked, _facts: &Facts) {}
}

/// Nobody looks on.
impl Observer for () {}

/// The facts before each statement, as the walk comes to it.
type Seen<'a> = &'a mut dyn FnMut(usize, &Facts);

struct FactsBefore<'a>(Seen<'a>);

impl Observer for FactsBefore<'_> {
    fn before(&mut self, statement: usize, facts: &Facts, _: &Rows, _: &Known) {
        (self.0)(statement, facts)
    }
}

/// The walk with one who is shown the facts alone.
pub fn walk(routine: &Routine, seen: Seen) -> Result<Facts, Refusal> {
    watch(routine, &mut FactsBefore(seen))
}

/// What is handed on from each statement to the next.
#[derive(Clone)]
struct State {
    facts: Facts,
    rows: Rows,
}

impl State {
    fn assume(self, condition: Condition) -> State {
        State { facts: self.facts.assume(condition), ..self }
    }
}

struct Walker<'a> {
    routine: &'a Routine,
    /// The routines that it may call, by their numbers (point 14).
    callees: &'a [Routine],
    loop_facts: &'a LoopFacts,
    observer: &'a mut dyn Observer,
}

impl Walker<'_> {
    fn before(&mut self, s: usize, state: &State, known: &Known) {
        self.observer.before(s, &state.facts, &state.rows, known);
    }

    fn after(&mut self, s: usize, state: &State, known: &Known) {
        self.observer.after(s, &state.facts, &state.rows, known);
    }

    fn shown(&self, v: Var, state: &State, known: &Known) -> bool {
        known.shows(self.routine, &state.rows, v, &state.facts)
    }

    /// Point 6: "Refusal 8 gives the lowest-numbered one not shown."
    fn all_shown(&self, place: usize, state: &State, known: &Known) -> Result<(), Refusal> {
        let variables = 0..self.routine.kinds.len() as Var;
        match variables.into_iter().find(|&v| !self.shown(v, state, known)) {
            Some(p) => Err(Refusal::bounds(place, p)),
            None => Ok(()),
        }
    }

    /// Walks a block in table order. Outside bundles the known bounds before
    /// each statement are the declared ones.
    fn block(&mut self, start: usize, end: usize, mut state: State) -> Result<State, Refusal> {
        let mut s = start;
        while s < end {
            let mut known = Known::declared(self.routine, &state.rows);
            self.before(s, &state, &known);
            let statement = self.routine.statements[s];
            let next = s + statement.size();
            state = match statement {
                Statement::If { .. } | Statement::While { .. } => {
                    let state = self.branch(s, statement, state)?;
                    known = Known::declared(self.routine, &state.rows);
                    state
                }
                Statement::Bundle { .. } => self.bundle(s + 1, next, state, &mut known)?,
                Statement::Call(call) => {
                    // "Both give the statement and come just before the call's own 8, 19 first."
                    if let Some(fault) = fault(self.routine, self.callees, &call, &state.facts, &known) {
                        return Err(Refusal::at(fault.cause(), s));
                    }
                    self.simple(statement, state, &mut known)
                }
                simple => self.simple(simple, state, &mut known),
            };
            self.after(s, &state, &known);
            // Of a kind 14 its pointer alone can be not shown: the others have their declared bounds.
            self.all_shown(s, &state, &known)?;
            s = next;
        }
        Ok(state)
    }

    /// An if or a while with its blocks.
    fn branch(&mut self, s: usize, statement: Statement, state: State) -> Result<State, Refusal> {
        let next = s + statement.size();
        match statement {
            Statement::If { condition, then_count, .. } => {
                let middle = s + 1 + then_count as usize;
                let then = self.block(s + 1, middle, state.clone().assume(condition))?;
                let other = self.block(middle, next, state.assume(condition.negated()))?;
                same_rows(s, &then, &other)?;
                Ok(State { facts: then.facts.join(&other.facts), ..then })
            }
            Statement::While { condition, .. } => {
                self.entries_shown(s, Asked::BeforeLoop, &state)?;
                let mut head = state;
                for v in self.routine.statements[s + 1..next].iter().filter_map(Statement::target) {
                    head.facts = head.facts.drop(Node::from(v));
                }
                head.facts = self.loop_facts.assume(s, head.facts);
                let end = self.block(s + 1, next, head.clone().assume(condition))?;
                self.entries_shown(s, Asked::AtBodyEnd, &end)?;
                same_rows(s, &head, &end)?;
                Ok(head.assume(condition.negated()))
            }
            _ => Ok(state),
        }
    }

    /// 17: a listed fact must be "shown before the loop and again at the end of the body".
    fn entries_shown(&mut self, s: usize, asked: Asked, state: &State) -> Result<(), Refusal> {
        match self.loop_facts.first_unshown(s, &state.facts) {
            Some((number, entry)) => {
                self.observer.unshown(number, entry, asked, &state.facts);
                Err(Refusal::at(17, number))
            }
            None => Ok(()),
        }
    }

    /// The statements of a bundle: 9, then the statement itself, then a kind 14's 8.
    fn bundle(
        &mut self,
        start: usize,
        end: usize,
        mut state: State,
        known: &mut Known,
    ) -> Result<State, Refusal> {
        for s in start..end {
            self.before(s, &state, known);
            let statement = self.routine.statements[s];
            if let Statement::Load { p, .. } | Statement::Store { p, .. } = statement {
                if !self.shown(p, &state, known) {
                    return Err(Refusal::at(9, s));
                }
            }
            state = self.simple(statement, state, known);
            self.after(s, &state, known);
            // "The row must be shown there as declared bounds are, else refusal 8 there with that pointer."
            if let Statement::Declare { p, .. } = statement {
                if !self.shown(p, &state, known) {
                    return Err(Refusal::bounds(s, p));
                }
            }
        }
        Ok(state)
    }

    /// Kinds 1 to 10, 14 and 15. A kind 14 changes the row in force alone.
    fn simple(&self, statement: Statement, mut state: State, known: &mut Known) -> State {
        if let Statement::Declare { p, row } = statement {
            state.rows.declare(p, row);
            return state;
        }
        State { facts: self.effect(statement, state.facts, known), ..state }
    }

    /// What kinds 1 to 10 and the result of a call do to facts and known bounds.
    fn effect(&self, statement: Statement, facts: Facts, known: &mut Known) -> Facts {
        let not_null = |facts: Facts, p: Var| facts.add(ZERO, Node::from(p), -1);
        match statement {
            Statement::Literal { x, literal } => {
                known.assign(x, None);
                facts.equate(Node::from(x), ZERO, i64::from(literal))
            }
            Statement::AddConstant { x, y, k } => {
                let (from, by) = (Node::from(y), i64::from(k));
                // Asked of the facts before the drop; a plain copy counts as shown.
                let in_range =
                    k == 0 || facts.shows(ZERO, from, by) && facts.shows(from, ZERO, GREATEST - by);
                known.assign(x, (x == y && in_range).then_some(k));
                match (in_range, x == y) {
                    (true, true) => facts.shift(from, by),
                    (true, false) => facts.equate(Node::from(x), from, by),
                    (false, _) => facts.drop(Node::from(x)),
                }
            }
            // "Kinds 3, 8 and any later kind that sets an integer: drop x."
            Statement::Operate { x, .. }
            | Statement::Load { x, .. }
            | Statement::Call(Call { result: Some(x), .. }) => {
                known.assign(x, None);
                facts.drop(Node::from(x))
            }
            Statement::Null { p } => {
                known.assign(p, None);
                facts.equate(Node::from(p), ZERO, 0)
            }
            Statement::Address { p, object } => {
                known.assign(p, None);
                known.set_object(p, self.routine.size(p), self.routine.objects[usize::from(object)]);
                not_null(facts.drop(Node::from(p)), p)
            }
            Statement::MovePointer { p, q, k } => {
                let by = i64::from(k);
                let facts = if p == q {
                    known.assign(p, Some(k));
                    facts.shift(Node::from(p), by)
                } else {
                    known.copy(p, q);
                    known.assign(p, None);
                    facts.equate(Node::from(p), Node::from(q), by)
                };
                if k == 0 {
                    facts
                } else {
                    not_null(facts, p)
                }
            }
            Statement::IndexPointer { p, q, .. } => {
                if p != q {
                    known.copy(p, q);
                }
                known.assign(p, None);
                not_null(facts.drop(Node::from(p)), p)
            }
            Statement::Check { condition } => facts.assume(condition),
            Statement::Store { .. }
            | Statement::If { .. }
            | Statement::While { .. }
            | Statement::Bundle { .. }
            | Statement::Declare { .. }
            | Statement::Call(Call { result: None, .. }) => facts,
        }
    }
}

/// 13: "the two sides of an if, or the head and end of a while body, leave rows of different numbers in force".
fn same_rows(place: usize, one: &State, other: &State) -> Result<(), Refusal> {
    if one.rows == other.rows {
        Ok(())
    } else {
        Err(Refusal::at(13, place))
    }
}

#[cfg(test)]
#[path = "checker_tests.rs"]
mod tests;

#[cfg(test)]
#[path = "rows_tests.rs"]
mod rows_tests;

#[cfg(test)]
#[path = "sizes_tests.rs"]
mod sizes_tests;

#[cfg(test)]
#[path = "observer_tests.rs"]
mod observer_tests;
