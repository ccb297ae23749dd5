//! One routine at work: its values, origins, rows in force and statement due, and one step of it by the paper's words.

use crate::answer::Check;
use crate::entry::{end_value, object_range};
use crate::rows::Rows;
use crate::table::{Call, Condition, Kind, Operator, Right, Routine, Statement, Var};

pub const MODULUS: i64 = 1 << 32;

/// The block a statement stands in: where it ends, and its head.
#[derive(Clone, Copy)]
struct Block {
    end: usize,
    head: Option<usize>,
}

/// A routine, with the block of each of its statements.
pub struct Plan<'a> {
    pub routine: &'a Routine,
    blocks: Vec<Block>,
}

impl<'a> Plan<'a> {
    pub fn new(routine: &'a Routine) -> Plan<'a> {
        let count = routine.statements.len();
        let mut blocks = vec![Block { end: count, head: None }; count];
        for (s, statement) in routine.statements.iter().enumerate() {
            // Heads come in table order, so an inner block overwrites an outer one.
            let end = s + statement.size();
            let middle = match *statement {
                Statement::If { then_count, .. } => s + 1 + then_count as usize,
                _ => end,
            };
            blocks[s + 1..middle].fill(Block { end: middle, head: Some(s) });
            blocks[middle..end].fill(Block { end, head: Some(s) });
        }
        Plan { routine, blocks }
    }

    /// The first statement of the table; in an empty one nothing.
    pub fn first(&self) -> Option<usize> {
        (!self.blocks.is_empty()).then_some(0)
    }

    /// The statement due once s, with its blocks, is through.
    pub fn after(&self, s: usize) -> Option<usize> {
        let next = s + self.routine.statements[s].size();
        let block = self.blocks[s];
        if next < block.end {
            return Some(next);
        }
        let head = block.head?;
        match self.routine.statements[head] {
            Statement::While { .. } => Some(head),
            _ => self.after(head),
        }
    }

    /// The first statement of the block from start to end of head, or what follows an empty one.
    fn enter(&self, head: usize, start: usize, end: usize) -> Option<usize> {
        if start < end {
            return Some(start);
        }
        match self.routine.statements[head] {
            Statement::While { .. } => Some(head),
            _ => self.after(head),
        }
    }

    /// "A point is in a bundle when a statement inside one is due".
    pub fn is_in_bundle(&self, s: usize) -> bool {
        let head = self.blocks[s].head.map(|head| self.routine.statements[head]);
        matches!(head, Some(Statement::Bundle { .. }))
    }
}

/// What a routine has at a point of a run.
#[derive(Clone, Debug)]
pub struct Frame {
    /// Its number in the set; of a routine by itself 0.
    pub routine: usize,
    pub values: Vec<u32>,
    pub origins: Vec<u32>,
    /// Point 2: whose bounds are the declared ones, "for the access check too".
    pub rows: Rows,
    /// Of a caller the call.
    pub due: Option<usize>,
}

pub enum Halt {
    Stopped(Check),
    Stuck,
}

/// What a step leaves to be done: the statement due then, or the call that it made.
pub enum Next {
    Due(Option<usize>),
    Called(Call),
}

impl Frame {
    pub fn value(&self, v: Var) -> i64 {
        i64::from(self.values[usize::from(v)])
    }

    pub fn set(&mut self, x: Var, value: i64) {
        self.values[usize::from(x)] = value.rem_euclid(MODULUS) as u32;
    }

    fn set_pointer(&mut self, p: Var, value: u32, origin: u32) {
        self.values[usize::from(p)] = value;
        self.origins[usize::from(p)] = origin;
    }

    /// Conditions compare values, pointers by address.
    fn holds(&self, condition: Condition) -> bool {
        let left = self.value(condition.left);
        let right = match condition.right {
            Right::Variable(v) => self.value(v),
            Right::Literal(literal) => i64::from(literal),
        };
        condition.relation.holds(left, right)
    }

    /// One step of the statement s.
    pub fn step(
        &mut self,
        plan: &Plan,
        directory: &[u32],
        cells: &mut [u32],
        s: usize,
    ) -> Result<Next, Halt> {
        let routine = plan.routine;
        let statement = routine.statements[s];
        let next = s + statement.size();
        match statement {
            Statement::Literal { x, literal } => self.set(x, i64::from(literal)),
            Statement::AddConstant { x, y, k } => self.set(x, self.value(y) + i64::from(k)),
            Statement::Operate { x, y, z, operator } => {
                let (y, z) = (self.value(y), self.value(z));
                match operator {
                    Operator::Add => self.set(x, y + z),
                    Operator::Subtract => self.set(x, y - z),
                    Operator::Multiply => self.set(x, ((y as u64 * z as u64) % MODULUS as u64) as i64),
                }
            }
            Statement::Null { p } => self.set_pointer(p, 0, 0),
            Statement::Address { p, object } => {
                let offset = directory[2 * usize::from(object)];
                self.set_pointer(p, offset, u32::from(object) + 1);
            }
            Statement::MovePointer { p, q, k: 0 } => {
                let (value, origin) = (self.values[usize::from(q)], self.origins[usize::from(q)]);
                self.set_pointer(p, value, origin);
            }
            Statement::MovePointer { p, q, k } => self.advance(p, q, i64::from(k))?,
            // Point 10: "Kind 7 moves by s of q times i".
            Statement::IndexPointer { p, q, i } => self.advance(p, q, routine.size(q) * self.value(i))?,
            Statement::Load { x, p, i, k } => {
                let access = Access { routine, directory, p, i, k, stored: None };
                let cell = cells[self.access(access)?];
                self.set(x, i64::from(cell));
            }
            Statement::Store { p, i, k, x } => {
                let number = self.values[usize::from(x)];
                let access = Access { routine, directory, p, i, k, stored: Some(number) };
                let address = self.access(access)?;
                cells[address] = number;
            }
            Statement::Check { condition } => {
                if !self.holds(condition) {
                    return Err(Halt::Stopped(Check::Dynamic));
                }
            }
            Statement::If { condition, then_count, .. } => {
                let middle = s + 1 + then_count as usize;
                let (start, end) = if self.holds(condition) { (s + 1, middle) } else { (middle, next) };
                return Ok(Next::Due(plan.enter(s, start, end)));
            }
            Statement::While { condition, .. } => {
                if self.holds(condition) {
                    return Ok(Next::Due(plan.enter(s, s + 1, next)));
                }
            }
            Statement::Bundle { .. } => return Ok(Next::Due(plan.enter(s, s + 1, next))),
            Statement::Declare { p, row } => self.rows.declare(p, row),
            Statement::Call(call) => return Ok(Next::Called(call)),
        }
        Ok(Next::Due(plan.after(s)))
    }

    /// Checks 4 and 5 of p := q + offset.
    fn advance(&mut self, p: Var, q: Var, offset: i64) -> Result<(), Halt> {
        if self.value(q) == 0 {
            return Err(Halt::Stopped(Check::NullArithmetic));
        }
        match u32::try_from(self.value(q) + offset) {
            Ok(result) if result > 0 => {
                self.set_pointer(p, result, self.origins[usize::from(q)]);
                Ok(())
            }
            _ => Err(Halt::Stopped(Check::Result)),
        }
    }

    /// Checks 2, 3 and 6 by p's declared ends and the values then; the cell's number.
    fn access(&self, access: Access) -> Result<usize, Halt> {
        let Access { routine, directory, p, i, k, stored } = access;
        if self.value(p) == 0 {
            return Err(Halt::Stopped(Check::NullAccess));
        }
        // Point 10: "an access is at p + s times i + k".
        let size = routine.size(p);
        let address = self.value(p) + size * i.map_or(0, |i| self.value(i)) + i64::from(k);
        let bounds = self.rows.declared(routine, p).expect("a pointer has bounds");
        let [lower, upper] = [bounds.lower, bounds.upper].map(|end| end_value(end, size, &self.values));
        // Point 7: "A kind 2 pointer may also read the cell at its upper end and store 0 there".
        let at_upper = routine.kinds[usize::from(p)] == Kind::Terminated && address == upper;
        if address < lower || address >= upper && !at_upper {
            return Err(Halt::Stopped(Check::OutOfBounds));
        }
        let other_number = stored.is_some_and(|number| number != 0);
        if at_upper && other_number {
            return Err(Halt::Stopped(Check::Terminator));
        }
        let origin = self.origins[usize::from(p)];
        if origin == 0 {
            return Err(Halt::Stuck);
        }
        let (low, high) = object_range(directory, origin);
        let terminator = routine.objects[origin as usize - 1].terminated && address == high - 1;
        if address < low || address >= high || terminator && other_number {
            return Err(Halt::Stuck);
        }
        Ok(address as usize)
    }
}

/// An access p[i + k] that reads, or stores this number.
struct Access<'a> {
    routine: &'a Routine,
    directory: &'a [u32],
    p: Var,
    i: Option<Var>,
    k: i32,
    stored: Option<u32>,
}
