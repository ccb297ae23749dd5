//! The interpreter in its fast form: the routine is translated once into
//! instructions that know where the run goes on, and runs without origins.
//! That is allowed because an accepted routine never leaves an origin object.

use crate::fast_check::{check_routine, report};
use crate::fast_code::{translate, Code, FlatBounds, FlatEnd, Near, Op, Slot, SLOTS};
use oracle::answer::{Check, RunAnswer, RunInput};
use oracle::entry::check_entry;
use oracle::loop_facts::LoopFacts;
use oracle::table::{decode, Routine, MAX_VARIABLES};

/// Checks the routine and the entry, then runs it in the lent buffers.
pub fn run(words: &[i32], input: &mut RunInput) -> RunAnswer {
    match decode(words).and_then(|r| check_routine(&r).map(|_| r)) {
        Err(refusal) => RunAnswer::Refused(refusal),
        Ok(routine) => run_routine(&routine, input),
    }
}

/// The same with a list of loop facts.
pub fn run_with_facts(words: &[i32], facts: &[i32], input: &mut RunInput) -> RunAnswer {
    let accepted = decode(words).and_then(|routine| {
        report(&routine, &LoopFacts::read(&routine, facts)?)?;
        Ok(routine)
    });
    match accepted {
        Err(refusal) => RunAnswer::Refused(refusal),
        Ok(routine) => run_routine(&routine, input),
    }
}

/// The run of an accepted routine.
pub fn run_routine(routine: &Routine, input: &mut RunInput) -> RunAnswer {
    if let Err(refusal) = check_entry(routine, &*input) {
        return RunAnswer::Refused(refusal);
    }
    let code = translate(routine, &input.directory);
    execute(&code, &mut input.cells, &mut input.values, input.allowance)
}

/// The values of all slots.
pub struct Values([u32; SLOTS]);

impl Default for Values {
    fn default() -> Values {
        Values([0; SLOTS])
    }
}

impl Values {
    /// Takes the lent values.
    pub fn put(&mut self, lent: &[u32]) {
        self.0[..lent.len()].copy_from_slice(lent);
    }

    pub fn give_back(&self, lent: &mut [u32]) {
        lent.copy_from_slice(&self.0[..lent.len()]);
    }

    /// Of a callee: the arguments, then zeros.
    pub fn call(&mut self, arguments: [u32; 4]) {
        self.0[..MAX_VARIABLES].fill(0);
        self.0[..4].copy_from_slice(&arguments);
    }

    #[inline(always)]
    pub fn get(&self, slot: Slot) -> u32 {
        self.0[usize::from(slot)]
    }

    #[inline(always)]
    fn wide(&self, slot: Slot) -> i64 {
        i64::from(self.get(slot))
    }

    #[inline(always)]
    pub fn set(&mut self, slot: Slot, value: u32) {
        self.0[usize::from(slot)] = value;
    }

    /// Whether the order of x and the right side is one of those wanted.
    #[inline(always)]
    fn holds(&self, x: Slot, right: u32, satisfied: u8) -> bool {
        let left = self.get(x);
        let order = u8::from(left >= right) + u8::from(left > right);
        satisfied >> order & 1 != 0
    }

    #[inline(always)]
    fn end(&self, end: &FlatEnd, size: i64) -> i64 {
        self.wide(end.pointer) + size * self.wide(end.integer) + end.constant
    }

    /// Checks 2 and 3 where the index alone decides; the address.
    #[inline(always)]
    fn near_access(&self, p: Slot, i: Slot, k: i32, near: Near) -> Result<i64, Check> {
        let pointer = self.wide(p);
        let size = i64::from(near.size);
        let index = size * self.wide(i) + i64::from(k);
        if pointer == 0 {
            return Err(Check::NullAccess);
        }
        if index < i64::from(near.low) || index >= size * self.wide(near.count) + i64::from(near.high) {
            return Err(Check::OutOfBounds);
        }
        Ok(pointer + index)
    }

    /// Checks 2 and 3 by the declared ends; the address.
    #[inline(always)]
    fn access(&self, p: Slot, i: Slot, k: i32, ends: &FlatBounds) -> Result<i64, Check> {
        let pointer = self.wide(p);
        if pointer == 0 {
            return Err(Check::NullAccess);
        }
        let FlatBounds { size, lower, upper } = ends;
        let address = pointer + size * self.wide(i) + i64::from(k);
        if address < self.end(lower, *size) || address >= self.end(upper, *size) {
            return Err(Check::OutOfBounds);
        }
        Ok(address)
    }

    /// Checks 2, 3 and 6 of a store of this number through a kind 2 pointer; the address.
    fn terminated(&self, p: Slot, i: Slot, k: i32, ends: &FlatBounds, number: u32) -> Result<i64, Check> {
        let mut read = *ends;
        read.upper.constant += 1;
        let address = self.access(p, i, k, &read)?;
        match address == self.end(&ends.upper, ends.size) && number != 0 {
            true => Err(Check::Terminator),
            false => Ok(address),
        }
    }

    /// Checks 4 and 5; the new address.
    #[inline(always)]
    fn advance(&self, q: Slot, offset: i64) -> Result<u32, Check> {
        let pointer = self.wide(q);
        if pointer == 0 {
            return Err(Check::NullArithmetic);
        }
        match u32::try_from(pointer + offset) {
            Ok(result) if result != 0 => Ok(result),
            _ => Err(Check::Result),
        }
    }
}

fn execute(code: &Code, cells: &mut [u32], lent: &mut [u32], allowance: u32) -> RunAnswer {
    let mut run = begin(code, lent);
    let answer = run.go(cells, allowance);
    run.give_back(lent);
    answer
}

/// A run that is begun; one that is spent can go on.
pub struct Begun<'a> {
    code: &'a Code,
    values: Values,
    due: usize,
    pub steps: u64,
}

pub fn begin<'a>(code: &'a Code, lent: &[u32]) -> Begun<'a> {
    let mut values = Values::default();
    values.put(lent);
    Begun { code, values, due: 0, steps: 0 }
}

impl Begun<'_> {
    /// So many more steps at most; the answer counts all that were made.
    pub fn go(&mut self, cells: &mut [u32], more: u32) -> RunAnswer {
        let mut left = more;
        let exit = run_loop(self.code, cells, &mut self.values, &mut self.due, &mut left);
        self.steps += u64::from(more - left);
        let (steps, statement) = (self.steps, self.due as u32);
        match exit {
            Exit::Done => RunAnswer::Done { steps },
            Exit::Spent => RunAnswer::Spent { steps, statement },
            Exit::Stopped(check) => RunAnswer::Stopped { steps, statement, check },
            // A routine by itself that is accepted has no call.
            Exit::Stuck | Exit::Called { .. } => RunAnswer::Stuck { steps, statement },
        }
    }

    pub fn give_back(&self, lent: &mut [u32]) {
        self.values.give_back(lent);
    }
}

/// Why the loop is left. `due` is the statement then: of a call the call, which is a step already.
pub enum Exit {
    Done,
    Spent,
    Stopped(Check),
    Stuck,
    Called { callee: u8, arguments: [Slot; 4] },
}

/// Goes on from the statement due, until no step is left of the allowance.
pub fn run_loop(
    code: &Code,
    cells: &mut [u32],
    values: &mut Values,
    due_then: &mut usize,
    left_then: &mut u32,
) -> Exit {
    let instructions = code.instructions.as_slice();
    let last = instructions.len() - 1;
    let (mut due, mut left) = (*due_then, *left_then);
    let exit = loop {
        if left == 0 {
            // Done comes before spent.
            break if due == last { Exit::Done } else { Exit::Spent };
        }
        left -= 1;
        let instruction = &instructions[due];
        let mut next = instruction.next;
        match instruction.op {
            Op::Set { x, value } => values.set(x, value),
            Op::AddConstant { x, y, k } => values.set(x, values.get(y).wrapping_add(k)),
            Op::Add { x, y, z } => values.set(x, values.get(y).wrapping_add(values.get(z))),
            Op::Subtract { x, y, z } => values.set(x, values.get(y).wrapping_sub(values.get(z))),
            Op::Multiply { x, y, z } => values.set(x, values.get(y).wrapping_mul(values.get(z))),
            Op::MovePointer { p, q, k } => match values.advance(q, i64::from(k)) {
                Ok(address) => values.set(p, address),
                Err(check) => break Exit::Stopped(check),
            },
            Op::IndexPointer { p, q, i, size } => match values.advance(q, i64::from(size) * values.wide(i)) {
                Ok(address) => values.set(p, address),
                Err(check) => break Exit::Stopped(check),
            },
            Op::LoadNear { x, p, i, k, near } => match values.near_access(p, i, k, near) {
                Ok(address) => match cells.get(address as usize) {
                    Some(&cell) => values.set(x, cell),
                    None => break Exit::Stuck,
                },
                Err(check) => break Exit::Stopped(check),
            },
            Op::StoreNear { x, p, i, k, near } => match values.near_access(p, i, k, near) {
                Ok(address) => match cells.get_mut(address as usize) {
                    Some(cell) => *cell = values.get(x),
                    None => break Exit::Stuck,
                },
                Err(check) => break Exit::Stopped(check),
            },
            Op::Load { x, p, i, k, ends } => match values.access(p, i, k, &code.ends[usize::from(ends)]) {
                Ok(address) => match cells.get(address as usize) {
                    Some(&cell) => values.set(x, cell),
                    None => break Exit::Stuck,
                },
                Err(check) => break Exit::Stopped(check),
            },
            Op::Store { x, p, i, k, ends } => match values.access(p, i, k, &code.ends[usize::from(ends)]) {
                Ok(address) => match cells.get_mut(address as usize) {
                    Some(cell) => *cell = values.get(x),
                    None => break Exit::Stuck,
                },
                Err(check) => break Exit::Stopped(check),
            },
            Op::StoreTerminated { x, p, i, k, ends } => {
                let number = values.get(x);
                match values.terminated(p, i, k, &code.ends[usize::from(ends)], number) {
                    Ok(address) => match cells.get_mut(address as usize) {
                        Some(cell) => *cell = number,
                        None => break Exit::Stuck,
                    },
                    Err(check) => break Exit::Stopped(check),
                }
            }
            Op::CheckVariable { x, y, satisfied } => {
                if !values.holds(x, values.get(y), satisfied) {
                    break Exit::Stopped(Check::Dynamic);
                }
            }
            Op::CheckLiteral { x, satisfied, literal } => {
                if !values.holds(x, literal, satisfied) {
                    break Exit::Stopped(Check::Dynamic);
                }
            }
            Op::BranchVariable { x, y, satisfied, other } => {
                if !values.holds(x, values.get(y), satisfied) {
                    next = other;
                }
            }
            Op::BranchLiteral { x, satisfied, other, literal } => {
                if !values.holds(x, literal, satisfied) {
                    next = other;
                }
            }
            Op::Enter => {}
            Op::Call { callee, arguments, .. } => break Exit::Called { callee, arguments },
            Op::Done => {
                left += 1;
                break Exit::Done;
            }
        }
        due = usize::from(next);
    };
    (*due_then, *left_then) = (due, left);
    exit
}
