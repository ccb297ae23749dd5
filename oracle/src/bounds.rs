//! Bounds in force: known ends, what an assignment makes of them, and when declared bounds are shown.

use crate::facts::{node_or_zero, Facts, Node, ZERO};
use crate::rows::Rows;
use crate::table::{Bounds, End, Object, Routine, Var};

/// A known end; its constant has no limit. `None` is an unknown end.
#[derive(Clone, Copy, Debug, PartialEq, Eq)]
pub struct Value {
    pub pointer: Var,
    pub integer: Option<Var>,
    pub constant: i64,
}

pub type KnownEnd = Option<Value>;

/// Point 10: "Known bounds carry the size they came with".
#[derive(Clone, Copy, Debug, PartialEq, Eq)]
pub struct KnownBounds {
    pub size: i64,
    pub lower: KnownEnd,
    pub upper: KnownEnd,
}

fn value(end: End) -> Value {
    Value { pointer: end.pointer, integer: end.integer, constant: i64::from(end.constant) }
}

/// The declared bounds of a variable, with its size; `None` for an integer.
fn declared(routine: &Routine, rows: &Rows, v: Var) -> Option<KnownBounds> {
    let Bounds { lower, upper } = rows.declared(routine, v)?;
    Some(KnownBounds { size: routine.size(v), lower: Some(value(lower)), upper: Some(value(upper)) })
}

/// The known bounds of every variable; `None` for an integer.
#[derive(Clone, Debug)]
pub struct Known(Vec<Option<KnownBounds>>);

impl Known {
    pub fn of(&self, variable: usize) -> Option<KnownBounds> {
        self.0[variable]
    }

    /// The declared ones.
    pub fn declared(routine: &Routine, rows: &Rows) -> Known {
        let variables = 0..routine.kinds.len() as Var;
        Known(variables.map(|v| declared(routine, rows, v)).collect())
    }

    /// Assigning v: every end that names v gets the inverse where one exists
    /// (v := v + k), otherwise that end is unknown.
    pub fn assign(&mut self, v: Var, inverse: Option<i32>) {
        for bounds in self.0.iter_mut().flatten() {
            let size = bounds.size;
            let change = |end: KnownEnd| {
                let end = end?;
                // "an end's integer is multiplied by the s of the pointer it bounds; each k stays in cells"
                let times = match (end.pointer == v, end.integer == Some(v)) {
                    (true, _) => 1,
                    (_, true) => size,
                    _ => return Some(end),
                };
                inverse.map(|k| Value { constant: end.constant - times * i64::from(k), ..end })
            };
            *bounds = KnownBounds { size, lower: change(bounds.lower), upper: change(bounds.upper) };
        }
    }

    pub fn copy(&mut self, p: Var, q: Var) {
        self.0[usize::from(p)] = self.0[usize::from(q)];
    }

    /// Kind 5 gives (p, p + length), of a terminated object "(p, p + length - 1)", with "the size of p".
    pub fn set_object(&mut self, p: Var, size: i64, object: Object) {
        let at = |constant| Some(Value { pointer: p, integer: None, constant });
        self.0[usize::from(p)] =
            Some(KnownBounds { size, lower: at(0), upper: at(i64::from(object.room())) });
    }

    /// Declared bounds of p are shown when p <= 0 is shown, or known lower <=
    /// declared lower and declared upper <= known upper. An integer has none.
    pub fn shows(&self, routine: &Routine, rows: &Rows, p: Var, facts: &Facts) -> bool {
        declared(routine, rows, p).is_none_or(|declared| self.shows_bounds(p, declared, facts))
    }

    /// Whether bounds of p are shown, as declared ones are.
    pub fn shows_bounds(&self, p: Var, bounds: KnownBounds, facts: &Facts) -> bool {
        let Some(known) = self.of(usize::from(p)) else { return true };
        let size = (known.size == bounds.size).then_some(known.size);
        facts.shows(Node::from(p), ZERO, 0)
            || end_below(facts, known.lower, bounds.lower, size)
                && end_below(facts, bounds.upper, known.upper, size)
    }
}

/// Point 9: whether the facts show "the lower end at most the address, and the address plus 1 at most the upper end", by
/// the declared ends in force; the address p + s times i + k is an end of the size of p.
pub fn access_within(routine: &Routine, rows: &Rows, facts: &Facts, p: Var, i: Option<Var>, k: i32) -> bool {
    let Some(KnownBounds { size, lower, upper }) = declared(routine, rows, p) else {
        return false;
    };
    let address = |more: i64| Some(Value { pointer: p, integer: i, constant: i64::from(k) + more });
    facts.contradictory()
        || end_below(facts, lower, address(0), Some(size)) && end_below(facts, address(1), upper, Some(size))
}

/// End a <= end b, with the size where both have the same one. An unknown end is below or above no end. Point 10: "With
/// equal sizes the integer chain's sum is multiplied by s; with different sizes an end is comparable only when neither
/// names an integer."
fn end_below(facts: &Facts, a: KnownEnd, b: KnownEnd, size: Option<i64>) -> bool {
    let (Some(a), Some(b)) = (a, b) else {
        return false;
    };
    let integers = match (size, a.integer, b.integer) {
        (_, None, None) => 0,
        (Some(size), n, m) => size * facts.sum(node_or_zero(n), node_or_zero(m)),
        (None, ..) => return false,
    };
    facts.sum(Node::from(a.pointer), Node::from(b.pointer)) + integers + a.constant <= b.constant
}
