//! The plain machine with origins: the run by the paper's words, one statement due at a time; of a set the routines
//! that wait for a callee below the one that runs (point 14).

use crate::answer::{RunAnswer, RunInput};
use crate::calls::arguments;
use crate::checker::check_routine;
use crate::entry::check_entry;
pub use crate::frame::MODULUS;
use crate::frame::{Frame, Halt, Next, Plan};
use crate::report::accept;
use crate::rows::Rows;
use crate::table::{decode, Call, Routine, Statement};

/// Checks the routine and the entry, then runs it in the lent buffers.
pub fn run(words: &[i32], input: &mut RunInput) -> RunAnswer {
    match decode(words).and_then(|r| check_routine(&r).map(|_| r)) {
        Err(refusal) => RunAnswer::Refused(refusal),
        Ok(routine) => run_routine(&routine, input),
    }
}

/// The same with a list of loop facts: it decides what is refused, and changes no step.
pub fn run_with_facts(words: &[i32], facts: &[i32], input: &mut RunInput) -> RunAnswer {
    match accept(words, facts) {
        Err(refusal) => RunAnswer::Refused(refusal),
        Ok(accepted) => run_routine(&accepted.routine, input),
    }
}

/// The run of an accepted routine.
pub fn run_routine(routine: &Routine, input: &mut RunInput) -> RunAnswer {
    if let Err(refusal) = check_entry(routine, &*input) {
        return RunAnswer::Refused(refusal);
    }
    let RunInput { directory, cells, values, origins, allowance } = input;
    Machine::new(routine, directory, values, origins).go(cells, u64::from(*allowance))
}

/// A run that is begun, on cells that it is lent again for each part of it.
pub struct Machine<'a> {
    plans: Vec<Plan<'a>>,
    directory: &'a [u32],
    /// The lent values, those of the routine in which the run began.
    lent: &'a mut [u32],
    /// The routine in which the run began, then each callee above its caller; the last one runs.
    frames: Vec<Frame>,
    steps: u64,
}

impl<'a> Machine<'a> {
    /// The start of a run of an accepted routine whose entry is accepted.
    pub fn new(
        routine: &'a Routine,
        directory: &'a [u32],
        values: &'a mut [u32],
        origins: &[u32],
    ) -> Machine<'a> {
        Machine::of_set(std::slice::from_ref(routine), directory, values, origins)
    }

    /// Point 14: "A run begins in the last routine".
    pub fn of_set(
        routines: &'a [Routine],
        directory: &'a [u32],
        values: &'a mut [u32],
        origins: &[u32],
    ) -> Machine<'a> {
        let plans: Vec<Plan> = routines.iter().map(Plan::new).collect();
        let last = routines.len() - 1;
        let begun = Frame {
            routine: last,
            values: values.to_vec(),
            origins: origins.to_vec(),
            rows: Rows::at_entry(&routines[last]),
            due: plans[last].first(),
        };
        Machine { plans, directory, lent: values, frames: vec![begun], steps: 0 }
    }

    pub fn steps(&self) -> u64 {
        self.steps
    }

    /// All routines at work, the one that runs last.
    pub fn frames(&self) -> &[Frame] {
        &self.frames
    }

    /// The routine that runs.
    pub fn running(&self) -> &Frame {
        self.frames.last().expect("the routine in which the run began")
    }

    pub fn plan(&self, frame: &Frame) -> &Plan<'a> {
        &self.plans[frame.routine]
    }

    pub fn directory(&self) -> &[u32] {
        self.directory
    }

    /// The statement due, of the routine that runs.
    pub fn due(&self) -> Option<usize> {
        self.running().due
    }

    /// The values of the routine in which the run began.
    pub fn values(&self) -> &[u32] {
        &self.frames[0].values
    }

    /// The origins of its pointers then.
    pub fn origins(&self) -> &[u32] {
        &self.frames[0].origins
    }

    /// Goes on to its end, or until it has made so many steps in all: done before spent, spent before stopped. A run
    /// that is spent can go on with a greater limit.
    pub fn go(&mut self, cells: &mut [u32], limit: u64) -> RunAnswer {
        let answer = self.steps_to(cells, limit);
        self.lent.copy_from_slice(&self.frames[0].values);
        answer
    }

    fn steps_to(&mut self, cells: &mut [u32], limit: u64) -> RunAnswer {
        while let Some(s) = self.due() {
            let statement = s as u32;
            if self.steps == limit {
                return RunAnswer::Spent { steps: self.steps, statement };
            }
            self.steps += 1;
            match self.step(cells, s) {
                Ok(()) => {}
                Err(Halt::Stopped(check)) => {
                    return RunAnswer::Stopped { steps: self.steps, statement, check }
                }
                Err(Halt::Stuck) => return RunAnswer::Stuck { steps: self.steps, statement },
            }
        }
        RunAnswer::Done { steps: self.steps }
    }

    /// One step of the routine that runs.
    fn step(&mut self, cells: &mut [u32], s: usize) -> Result<(), Halt> {
        let frame = self.frames.last_mut().expect("the routine in which the run began");
        match frame.step(&self.plans[frame.routine], self.directory, cells, s)? {
            Next::Due(due) => frame.due = due,
            Next::Called(call) => {
                let callee = enter(&self.plans, frame, &call);
                self.frames.push(callee);
            }
        }
        self.leave();
        Ok(())
    }

    /// "in the step that ends the callee's table (for an empty table the call itself), the caller gets it and what
    /// follows the call is due": one step may end several tables.
    fn leave(&mut self) {
        while self.frames.len() > 1 && self.due().is_none() {
            let ended = self.frames.pop().expect("a callee");
            let caller = self.frames.last_mut().expect("its caller");
            let plan = &self.plans[caller.routine];
            let call = caller.due.expect("the call is due until it is through");
            // "The result is the value of its last variable".
            if let (Statement::Call(Call { result: Some(x), .. }), Some(&value)) =
                (plan.routine.statements[call], ended.values.last())
            {
                caller.set(x, i64::from(value));
            }
            caller.due = plan.after(call);
        }
    }
}

/// "The callee's first variables take the arguments ..; its other integers are 0 and its other pointers null."
fn enter(plans: &[Plan], caller: &Frame, call: &Call) -> Frame {
    let number = call.callee as usize;
    let routine = plans[number].routine;
    let given = arguments(call);
    let taken = |lent: &[u32]| -> Vec<u32> {
        let arguments = given.iter().map(|&v| lent[usize::from(v)]);
        arguments.chain(std::iter::repeat(0)).take(routine.kinds.len()).collect()
    };
    Frame {
        routine: number,
        values: taken(&caller.values),
        origins: taken(&caller.origins),
        rows: Rows::at_entry(routine),
        due: plans[number].first(),
    }
}

#[cfg(test)]
#[path = "machine_tests.rs"]
mod tests;
