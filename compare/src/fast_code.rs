//! The translation for the fast interpreter: instructions that know where the
//! run goes on, over slots of values.

use crate::fast_bounds::{declared, InForce, AT_ENTRY};
use oracle::table::{Bounds, Call, Condition, End, Kind, Operator, Right, Routine, Statement, Var};

/// A value slot: 0 to 15 the variables, `NOTHING` always 0. There is one for
/// every number a slot can have, so that no index needs a check.
pub type Slot = u8;
pub const SLOTS: usize = 256;
const NOTHING: Slot = 16;
/// Where a result goes that nobody wants.
const DISCARDED: Slot = 17;

/// Which of less, equal, greater satisfy each relation, as bits 0, 1, 2.
const SATISFIED: [u8; 6] = [0b001, 0b110, 0b100, 0b011, 0b010, 0b101];

#[derive(Clone, Copy)]
pub enum Op {
    /// Kinds 1, 4 and 5.
    Set {
        x: Slot,
        value: u32,
    },
    /// Kind 2, and kind 6 with k = 0.
    AddConstant {
        x: Slot,
        y: Slot,
        k: u32,
    },
    Add {
        x: Slot,
        y: Slot,
        z: Slot,
    },
    Subtract {
        x: Slot,
        y: Slot,
        z: Slot,
    },
    Multiply {
        x: Slot,
        y: Slot,
        z: Slot,
    },
    /// Kind 6 with k not 0.
    MovePointer {
        p: Slot,
        q: Slot,
        k: i32,
    },
    /// Kind 7, with the element size of q.
    IndexPointer {
        p: Slot,
        q: Slot,
        i: Slot,
        size: u8,
    },
    /// An access through a pointer with both ends at itself: the index alone decides.
    LoadNear {
        x: Slot,
        p: Slot,
        i: Slot,
        k: i32,
        near: Near,
    },
    StoreNear {
        x: Slot,
        p: Slot,
        i: Slot,
        k: i32,
        near: Near,
    },
    /// An access through any other pointer, with its place in the table of ends.
    Load {
        x: Slot,
        p: Slot,
        i: Slot,
        k: i32,
        ends: u16,
    },
    Store {
        x: Slot,
        p: Slot,
        i: Slot,
        k: i32,
        ends: u16,
    },
    /// A store through a kind 2 pointer (point 7): at its upper end only 0.
    StoreTerminated {
        x: Slot,
        p: Slot,
        i: Slot,
        k: i32,
        ends: u16,
    },
    /// A dynamic check: goes on at `next`, or stops.
    CheckVariable {
        x: Slot,
        y: Slot,
        satisfied: u8,
    },
    CheckLiteral {
        x: Slot,
        satisfied: u8,
        literal: u32,
    },
    /// If and while: goes on at `next` where the condition holds, else at `other`.
    BranchVariable {
        x: Slot,
        y: Slot,
        satisfied: u8,
        other: u16,
    },
    BranchLiteral {
        x: Slot,
        satisfied: u8,
        other: u16,
        literal: u32,
    },
    /// The head of a bundle, and kind 14: a step that changes nothing here.
    Enter,
    /// Kind 15: where the callee has ended, `result` takes its last variable.
    Call {
        callee: u8,
        result: Slot,
        arguments: [Slot; 4],
    },
    /// Nothing is due.
    Done,
}

/// Index bounds in cells, from `low` to the value of slot `count` times the element size plus `high`, exclusive.
#[derive(Clone, Copy)]
pub struct Near {
    pub count: Slot,
    pub size: u8,
    pub low: i32,
    pub high: i32,
}

/// Aligned so that its place is a shift of its number and no line of the cache splits it.
#[derive(Clone, Copy)]
#[repr(align(32))]
pub struct Instruction {
    pub op: Op,
    pub next: u16,
}

#[derive(Clone, Copy)]
pub struct FlatEnd {
    pub pointer: Slot,
    pub integer: Slot,
    pub constant: i64,
}

/// The ends of an access, and the element size that integers are multiplied by.
#[derive(Clone, Copy)]
pub struct FlatBounds {
    pub size: i64,
    pub lower: FlatEnd,
    pub upper: FlatEnd,
}

pub struct Code {
    pub instructions: Vec<Instruction>,
    pub ends: Vec<FlatBounds>,
    /// The last variable: what a caller gets.
    pub result: Slot,
}

impl Code {
    /// Where the result of the call at s goes, and where the run goes on.
    pub fn behind_call(&self, s: usize) -> (Slot, usize) {
        match self.instructions[s] {
            Instruction { op: Op::Call { result, .. }, next } => (result, usize::from(next)),
            Instruction { next, .. } => (DISCARDED, usize::from(next)),
        }
    }
}

fn slot(variable: Option<Var>) -> Slot {
    variable.unwrap_or(NOTHING)
}

fn flat(end: End) -> FlatEnd {
    FlatEnd { pointer: end.pointer, integer: slot(end.integer), constant: i64::from(end.constant) }
}

/// Both ends at p itself, the lower one without an integer: as in count(n).
fn near(p: Var, size: u8, bounds: &Bounds) -> Option<Near> {
    let Bounds { lower, upper } = bounds;
    let at_itself = lower.pointer == p && upper.pointer == p && lower.integer.is_none();
    at_itself.then_some(Near { count: slot(upper.integer), size, low: lower.constant, high: upper.constant })
}

/// Of an accepted routine.
pub fn translate(routine: &Routine, directory: &[u32]) -> Code {
    let end = routine.statements.len();
    let instructions = vec![Instruction { op: Op::Done, next: 0 }; end + 1];
    let code = Code { instructions, ends: Vec::new(), result: routine.kinds.len() as Slot - 1 };
    let mut translator = Translator { routine, directory, in_force: AT_ENTRY, code };
    translator.block(0, end, end);
    translator.code
}

/// Where a routine is accepted, the row in force at a statement is the same by every way to it (13): so each access
/// is translated with its ends, and a kind 14 has nothing left to do.
struct Translator<'a> {
    routine: &'a Routine,
    directory: &'a [u32],
    in_force: InForce,
    code: Code,
}

impl Translator<'_> {
    /// Translates a block; its last statement goes on at `after`.
    fn block(&mut self, start: usize, end: usize, after: usize) {
        let mut s = start;
        while s < end {
            let statement = self.routine.statements[s];
            let next = s + statement.size();
            let follow = if next < end { next } else { after };
            let first = |from: usize, to: usize, otherwise: usize| if from < to { from } else { otherwise };
            let (op, next_due) = match statement {
                Statement::If { condition, then_count, .. } => {
                    let middle = s + 1 + then_count as usize;
                    let head = self.in_force;
                    self.block(s + 1, middle, follow);
                    self.in_force = head;
                    self.block(middle, next, follow);
                    (branch(condition, first(middle, next, follow)), first(s + 1, middle, follow))
                }
                Statement::While { condition, .. } => {
                    self.block(s + 1, next, s);
                    (branch(condition, follow), first(s + 1, next, s))
                }
                Statement::Bundle { .. } => {
                    self.block(s + 1, next, follow);
                    (Op::Enter, s + 1)
                }
                simple => (self.simple(simple), follow),
            };
            self.code.instructions[s] = Instruction { op, next: next_due as u16 };
            s = next;
        }
    }

    fn is_terminated(&self, p: Var) -> bool {
        self.routine.kinds[usize::from(p)] == Kind::Terminated
    }

    /// The place of bounds in the table of ends.
    fn ends(&mut self, size: u8, bounds: &Bounds) -> u16 {
        let (lower, upper) = (flat(bounds.lower), flat(bounds.upper));
        self.code.ends.push(FlatBounds { size: i64::from(size), lower, upper });
        self.code.ends.len() as u16 - 1
    }

    /// The bounds of an access through p: near ones, or their place in the table of ends. A kind 2 pointer reads one
    /// cell more.
    fn bounds(&mut self, p: Var) -> Result<Near, u16> {
        let mut bounds = *declared(self.routine, usize::from(p), self.in_force[usize::from(p)]);
        bounds.upper.constant += i32::from(self.is_terminated(p));
        let size = self.routine.sizes[usize::from(p)];
        near(p, size, &bounds).ok_or_else(|| self.ends(size, &bounds))
    }

    fn simple(&mut self, statement: Statement) -> Op {
        match statement {
            Statement::Literal { x, literal } => Op::Set { x, value: literal },
            Statement::AddConstant { x, y, k } => Op::AddConstant { x, y, k: k as u32 },
            Statement::Operate { x, y, z, operator: Operator::Add } => Op::Add { x, y, z },
            Statement::Operate { x, y, z, operator: Operator::Subtract } => Op::Subtract { x, y, z },
            Statement::Operate { x, y, z, operator: Operator::Multiply } => Op::Multiply { x, y, z },
            Statement::Null { p } => Op::Set { x: p, value: 0 },
            Statement::Address { p, object } => {
                Op::Set { x: p, value: self.directory[2 * usize::from(object)] }
            }
            Statement::MovePointer { p, q, k: 0 } => Op::AddConstant { x: p, y: q, k: 0 },
            Statement::MovePointer { p, q, k } => Op::MovePointer { p, q, k },
            Statement::IndexPointer { p, q, i } => {
                Op::IndexPointer { p, q, i, size: self.routine.sizes[usize::from(q)] }
            }
            Statement::Load { x, p, i, k } => match self.bounds(p) {
                Ok(near) => Op::LoadNear { x, p, i: slot(i), k, near },
                Err(ends) => Op::Load { x, p, i: slot(i), k, ends },
            },
            Statement::Store { p, i, k, x } if self.is_terminated(p) => {
                let bounds = declared(self.routine, usize::from(p), self.in_force[usize::from(p)]);
                let ends = self.ends(self.routine.sizes[usize::from(p)], bounds);
                Op::StoreTerminated { x, p, i: slot(i), k, ends }
            }
            Statement::Store { p, i, k, x } => match self.bounds(p) {
                Ok(near) => Op::StoreNear { x, p, i: slot(i), k, near },
                Err(ends) => Op::Store { x, p, i: slot(i), k, ends },
            },
            Statement::Check { condition } => {
                let (x, satisfied) = (condition.left, SATISFIED[condition.relation as usize]);
                match condition.right {
                    Right::Variable(y) => Op::CheckVariable { x, y, satisfied },
                    Right::Literal(literal) => Op::CheckLiteral { x, satisfied, literal },
                }
            }
            Statement::Declare { p, row } => {
                self.in_force[usize::from(p)] = row;
                Op::Enter
            }
            Statement::Call(Call { callee, result, arguments }) => Op::Call {
                callee: callee as u8,
                result: result.unwrap_or(DISCARDED),
                arguments: arguments.map(slot),
            },
            Statement::If { .. } | Statement::While { .. } | Statement::Bundle { .. } => Op::Enter,
        }
    }
}

fn branch(condition: Condition, other: usize) -> Op {
    let (x, satisfied, other) = (condition.left, SATISFIED[condition.relation as usize], other as u16);
    match condition.right {
        Right::Variable(y) => Op::BranchVariable { x, y, satisfied, other },
        Right::Literal(literal) => Op::BranchLiteral { x, satisfied, other, literal },
    }
}

#[cfg(test)]
mod tests {
    use super::*;
    use oracle::syntax::RELATIONS;

    #[test]
    fn a_negation_is_satisfied_where_its_relation_is_not() {
        for relation in RELATIONS {
            let satisfied = [relation, relation.negated()].map(|r| SATISFIED[r as usize]);
            assert_eq!(satisfied[0] ^ satisfied[1], 0b111, "{relation:?}");
        }
    }
}
