//! Sets of routines in the fast form: each is walked and translated once; callees have their slots above their caller's.

use crate::fast_check::check_member;
use crate::fast_code::{translate, Code};
use crate::fast_run::{run_loop, Exit, Values};
use oracle::answer::{Refusal, RunAnswer, RunInput};
use oracle::entry::check_entry;
use oracle::set::{SetAnswer, SetRefusal, MAX_ROUTINES};
use oracle::table::{decode_member, Object, Routine};

/// All refusals of the check; the routines.
pub fn check(tables: &[&[i32]]) -> Result<Vec<Routine>, SetRefusal> {
    if tables.is_empty() || tables.len() > MAX_ROUTINES {
        return Err(SetRefusal { routine: 0, refusal: Refusal::at(15, 0) });
    }
    let mut routines: Vec<Routine> = Vec::with_capacity(tables.len());
    for (number, table) in tables.iter().enumerate() {
        let objects: Option<&[Object]> = routines.first().map(|first| &first.objects[..]);
        let checked = decode_member(table, objects).and_then(|routine| {
            check_member(&routine, &routines)?;
            Ok(routine)
        });
        routines.push(checked.map_err(|refusal| SetRefusal { routine: number, refusal })?);
    }
    Ok(routines)
}

/// Checks the routines and the entry of the last one, then runs it in the lent buffers.
pub fn run(tables: &[&[i32]], input: &mut RunInput) -> SetAnswer {
    match check(tables) {
        Err(refusal) => refusal.into(),
        Ok(routines) => run_routines(&routines, input),
    }
}

/// The run of an accepted set.
pub fn run_routines(routines: &[Routine], input: &mut RunInput) -> SetAnswer {
    let last = routines.len() - 1;
    if let Err(refusal) = check_entry(&routines[last], &*input) {
        return SetRefusal { routine: last, refusal }.into();
    }
    let codes: Vec<Code> = routines.iter().map(|routine| translate(routine, &input.directory)).collect();
    execute(&codes, input)
}

/// A routine at work.
struct Frame {
    number: usize,
    due: usize,
    values: Values,
}

/// A callee's number falls with each call, so no more than all routines are at work at once.
fn execute(codes: &[Code], input: &mut RunInput) -> SetAnswer {
    let RunInput { cells, values, allowance, .. } = input;
    let none = || Frame { number: 0, due: 0, values: Values::default() };
    let mut frames: Vec<Frame> = codes.iter().map(|_| none()).collect();
    frames[0].number = codes.len() - 1;
    frames[0].values.put(values);
    let (mut depth, mut left) = (0, *allowance);
    let answer = loop {
        let Frame { number, due, values } = &mut frames[depth];
        let code = &codes[*number];
        let exit = run_loop(code, cells, values, due, &mut left);
        let (steps, statement) = (u64::from(*allowance - left), *due as u32);
        match exit {
            Exit::Called { callee, arguments } => {
                let given = arguments.map(|slot| values.get(slot));
                depth += 1;
                let Frame { number, due, values } = &mut frames[depth];
                (*number, *due) = (usize::from(callee), 0);
                values.call(given);
            }
            Exit::Done if depth > 0 => {
                let result = values.get(code.result);
                depth -= 1;
                frames[depth].hand_over(codes, result);
            }
            Exit::Done => break RunAnswer::Done { steps },
            Exit::Spent => break RunAnswer::Spent { steps, statement },
            Exit::Stopped(check) => break RunAnswer::Stopped { steps, statement, check },
            Exit::Stuck => break RunAnswer::Stuck { steps, statement },
        }
    };
    let routine = if let RunAnswer::Done { .. } = answer { 0 } else { frames[depth].number };
    frames[0].values.give_back(values);
    SetAnswer { routine, answer }
}

impl Frame {
    /// The callee of the call that is due has ended with this result.
    fn hand_over(&mut self, codes: &[Code], result: u32) {
        let (target, next) = codes[self.number].behind_call(self.due);
        self.values.set(target, result);
        self.due = next;
    }
}
