//! Bounds in force in the fast form: ends over rows of the fact store, looked at only where they changed.

use crate::fast_facts::FastFacts;
use oracle::answer::{CheckAnswer, Refusal};
use oracle::table::{Bounds, End, Object, Routine, Var};

/// An integer that no end, no condition and no kind 2 reads: no question can
/// reach its facts, so it gets no node.
pub const NO_NODE: u8 = u8::MAX;

/// The variable's own bound, where other numbers are bounds rows.
const OWN: u8 = u8::MAX;

/// For each variable the bounds row in force (point 2).
pub type InForce = [u8; 16];

/// What is in force at entry.
pub const AT_ENTRY: InForce = [OWN; 16];

/// The declared bound of pointer p where this row is in force.
pub fn declared(routine: &Routine, p: usize, row: u8) -> &Bounds {
    match row {
        OWN => routine.bounds[p].as_ref().expect("a pointer has bounds"),
        row => &routine.rows[usize::from(row)],
    }
}

/// An end over nodes of the fact store; a missing integer is the node of zero.
#[derive(Clone, Copy)]
struct Known {
    pointer: u8,
    integer: u8,
    constant: i64,
}

/// Out of reach of any sum: an unknown lower end lies above every end, an
/// unknown upper end below every end. Both name only zero.
const UNKNOWN: i64 = 1 << 60;

/// The ends, and the element size that their integers are multiplied by (point 10).
#[derive(Clone, Copy)]
struct KnownBounds {
    size: i64,
    lower: Known,
    upper: Known,
}

/// End a <= end b of bounds with the same size.
fn below(facts: &FastFacts, a: &Known, b: &Known, size: i64) -> bool {
    let pointers = facts.sum(usize::from(a.pointer), usize::from(b.pointer));
    let integers = facts.sum(usize::from(a.integer), usize::from(b.integer));
    pointers + size * integers + a.constant <= b.constant
}

/// Whether a lies within b: each end of b is the outer one.
#[inline]
fn within(facts: &FastFacts, a: &KnownBounds, b: &KnownBounds, zero: u8) -> bool {
    // With different sizes only ends without integers compare; an unknown end names none, and is below no end.
    let names_none = |bounds: &KnownBounds| bounds.lower.integer == zero && bounds.upper.integer == zero;
    (a.size == b.size || names_none(a) && names_none(b))
        && below(facts, &b.lower, &a.lower, a.size)
        && below(facts, &a.upper, &b.upper, a.size)
}

pub struct FastBounds<'a> {
    routine: &'a Routine,
    /// The node of each variable, and of zero.
    nodes: [u8; 16],
    zero: u8,
    pub in_force: InForce,
    declared: [KnownBounds; 16],
    known: [KnownBounds; 16],
    /// Bit p of entry v: an end that was declared of pointer p up to here names v.
    named_by: [u16; 16],
    /// The pointers whose known bounds may differ from the declared ones.
    changed: u16,
}

/// The numbers of the bits set, lowest first.
pub fn bits(mut mask: u16) -> impl Iterator<Item = usize> {
    std::iter::from_fn(move || {
        if mask == 0 {
            return None;
        }
        let bit = mask.trailing_zeros() as usize;
        mask &= mask - 1;
        Some(bit)
    })
}

/// Bit v for each variable whose facts can matter, beside those that are asked for.
fn used(routine: &Routine, asked: u16) -> u16 {
    let mut mask = routine.compared | asked;
    for bounds in routine.bounds.iter().flatten().chain(&routine.rows) {
        for integer in [bounds.lower.integer, bounds.upper.integer].into_iter().flatten() {
            mask |= 1 << integer;
        }
    }
    let pointers = routine.kinds.iter().enumerate().filter(|(_, kind)| kind.is_pointer());
    pointers.fold(mask, |mask, (v, _)| mask | 1 << v)
}

impl<'a> FastBounds<'a> {
    /// The bounds at entry and the facts there; bit v of `asked` for each variable that a list or a report asks of.
    pub fn new(routine: &'a Routine, asked: u16) -> (FastBounds<'a>, FastFacts) {
        let used = used(routine, asked);
        let pointers = routine.kinds.iter().filter(|kind| kind.is_pointer()).count();
        let integers = used.count_ones() as usize - pointers;
        let (mut next_pointer, mut next_integer) = (0u8, pointers as u8 + 1);
        let mut nodes = [NO_NODE; 16];
        for v in bits(used) {
            let next = match routine.kinds[v].is_pointer() {
                true => &mut next_pointer,
                false => &mut next_integer,
            };
            nodes[v] = *next;
            *next += 1;
        }
        let zero = pointers as u8;
        let nothing = Known { pointer: zero, integer: zero, constant: 0 };
        let none = [KnownBounds { size: 1, lower: nothing, upper: nothing }; 16];
        let mut bounds = FastBounds {
            routine,
            nodes,
            zero,
            in_force: AT_ENTRY,
            declared: none,
            known: none,
            named_by: [0; 16],
            changed: 0,
        };
        for (p, own) in routine.bounds.iter().enumerate() {
            if let Some(own) = own {
                bounds.put(p, own);
            }
        }
        bounds.known = bounds.declared;
        (bounds, FastFacts::new(pointers, integers))
    }

    #[inline(always)]
    pub fn node(&self, v: Var) -> usize {
        usize::from(self.nodes[usize::from(v & 15)])
    }

    /// The node of a variable whose facts can matter.
    #[inline(always)]
    pub fn used_node(&self, v: Var) -> Option<usize> {
        let node = self.nodes[usize::from(v)];
        (node != NO_NODE).then_some(usize::from(node))
    }

    #[inline(always)]
    pub fn zero(&self) -> usize {
        usize::from(self.zero)
    }

    fn known_end(&self, end: End) -> Known {
        Known {
            pointer: self.nodes[usize::from(end.pointer)],
            integer: end.integer.map_or(self.zero, |i| self.nodes[usize::from(i)]),
            constant: i64::from(end.constant),
        }
    }

    /// Makes bounds the declared ones of p.
    fn put(&mut self, p: usize, bounds: &Bounds) {
        for end in [bounds.lower, bounds.upper] {
            self.named_by[usize::from(end.pointer)] |= 1 << p;
            if let Some(integer) = end.integer {
                self.named_by[usize::from(integer)] |= 1 << p;
            }
        }
        self.declared[p] = KnownBounds {
            size: self.routine.size(p as Var),
            lower: self.known_end(bounds.lower),
            upper: self.known_end(bounds.upper),
        };
    }

    /// Kind 14: the declared bound alone changes.
    pub fn declare(&mut self, p: Var, row: u8) {
        self.in_force[usize::from(p)] = row;
        self.put(usize::from(p), declared(self.routine, usize::from(p), row));
        self.changed |= 1 << p;
    }

    /// Puts the rows that were in force at a head in force again, where known bounds are the declared ones.
    pub fn restore(&mut self, rows: &InForce) {
        if self.in_force == *rows {
            return;
        }
        for (p, &row) in rows.iter().enumerate() {
            if row != self.in_force[p] {
                self.put(p, declared(self.routine, p, row));
                self.known[p] = self.declared[p];
            }
        }
        self.in_force = *rows;
    }

    #[inline]
    pub fn shown(&self, p: Var, facts: &FastFacts) -> bool {
        let (known, declared) = (&self.known[usize::from(p)], &self.declared[usize::from(p)]);
        self.changed & 1 << p == 0
            || within(facts, declared, known, self.zero)
            || facts.shows(self.node(p), self.zero(), 0)
    }

    /// Whether the facts show p >= 1 and the access p[i + k] within the declared bounds (point 9).
    pub fn access_within(&self, p: Var, i: Option<Var>, k: i32, facts: &FastFacts) -> bool {
        if facts.contradictory {
            return true;
        }
        let declared = &self.declared[usize::from(p)];
        let integer = i.map_or(self.zero, |i| self.nodes[usize::from(i)]);
        let address = Known { pointer: self.nodes[usize::from(p)], integer, constant: i64::from(k) };
        let behind = Known { constant: address.constant + 1, ..address };
        facts.shows(self.zero(), self.node(p), -1)
            && below(facts, &declared.lower, &address, declared.size)
            && below(facts, &behind, &declared.upper, declared.size)
    }

    /// Whether the bounds of a callee's parameter name parameters only and are shown, with the arguments put in
    /// (point 14). Outside bundles the known bounds are the declared ones.
    pub fn argument_shown(&self, callee: &Routine, given: &[Var], place: usize, facts: &FastFacts) -> bool {
        let Some(Bounds { lower, upper }) = callee.bounds[place] else { return true };
        let put = |end: End| {
            let node = |v: Var| given.get(usize::from(v)).map(|&v| self.nodes[usize::from(v)]);
            let integer = end.integer.map_or(Some(self.zero), node)?;
            Some(Known { pointer: node(end.pointer)?, integer, constant: i64::from(end.constant) })
        };
        let (Some(lower), Some(upper)) = (put(lower), put(upper)) else { return false };
        let p = given[place];
        let wanted = KnownBounds { size: i64::from(callee.sizes[place]), lower, upper };
        within(facts, &wanted, &self.known[usize::from(p)], self.zero)
            || facts.shows(self.node(p), self.zero(), 0)
    }

    /// All declared bounds must be shown and become the known ones.
    #[inline]
    pub fn settle(&mut self, place: usize, facts: &FastFacts) -> CheckAnswer {
        if self.changed == 0 {
            return Ok(());
        }
        // The lowest first: it is the one to name.
        for p in bits(self.changed) {
            if !self.shown(p as Var, facts) {
                return Err(Refusal::bounds(place, p as Var));
            }
            self.known[p] = self.declared[p];
        }
        self.changed = 0;
        Ok(())
    }

    /// Every end that names v becomes unknown.
    pub fn forget(&mut self, v: Var) {
        let node = self.nodes[usize::from(v)];
        let zero = self.zero;
        let touched = self.named_by[usize::from(v)] | self.changed;
        for p in bits(touched) {
            let known = &mut self.known[p];
            if known.lower.pointer == node || known.lower.integer == node {
                known.lower = Known { pointer: zero, integer: zero, constant: UNKNOWN };
            }
            if known.upper.pointer == node || known.upper.integer == node {
                known.upper = Known { pointer: zero, integer: zero, constant: -UNKNOWN };
            }
        }
        self.changed = touched;
    }

    /// v := v + k: replace v by v - k in every end that names it.
    pub fn invert(&mut self, v: Var, k: i64) {
        let node = self.nodes[usize::from(v)];
        let touched = self.named_by[usize::from(v)] | self.changed;
        for p in bits(touched) {
            let known = &mut self.known[p];
            let size = known.size;
            for end in [&mut known.lower, &mut known.upper] {
                if end.pointer == node {
                    end.constant -= k;
                } else if end.integer == node {
                    end.constant -= size * k;
                }
            }
        }
        self.changed = touched;
    }

    /// Kinds 6 and 7 to another pointer first copy the known bounds of q.
    pub fn copy(&mut self, p: Var, q: Var) {
        self.known[usize::from(p)] = self.known[usize::from(q)];
        self.changed |= 1 << p;
        self.forget(p);
    }

    /// Kind 5 gives (p, p + length), of a terminated object one cell less.
    pub fn set_object(&mut self, p: Var, object: Object) {
        self.forget(p);
        let (pointer, integer) = (self.nodes[usize::from(p)], self.zero);
        self.known[usize::from(p)] = KnownBounds {
            size: self.routine.size(p),
            lower: Known { pointer, integer, constant: 0 },
            upper: Known { pointer, integer, constant: i64::from(object.room()) },
        };
        self.changed |= 1 << p;
    }
}
