//! What demand 3 claims of every point of a run, asked of the plain machine: "The bounds that hold at every point are
//! those of the routine running then, outside its bundles, and of all its callers" (point 14), and "At every point of a
//! run the last cell of each terminated object is 0" (point 7). That each access lies in its origin object is the
//! machine's own alarm.

use crate::entry::{end_value, object_range};
use crate::frame::Frame;
use crate::machine::Machine;
use crate::table::{End, Kind, Routine, Var};

/// The part of the claim that a point breaks, in words.
pub fn broken(machine: &Machine, cells: &[u32]) -> Option<String> {
    for (depth, frame) in machine.frames().iter().enumerate() {
        let plan = machine.plan(frame);
        let runs = depth + 1 == machine.frames().len();
        if runs && frame.due.is_some_and(|s| plan.is_in_bundle(s)) {
            continue;
        }
        let variables = 0..plan.routine.kinds.len() as Var;
        let untrue = |&v: &Var| !bounds_true(plan.routine, frame, machine.directory(), v);
        if let Some(p) = variables.into_iter().find(untrue) {
            let steps = machine.steps();
            return Some(format!(
                "bounds of {p} of routine {} are untrue after {steps} steps",
                frame.routine
            ));
        }
    }
    let objects = &machine.plan(machine.running()).routine.objects;
    let last = |o: usize| object_range(machine.directory(), o as u32 + 1).1 as usize - 1;
    let open = (0..objects.len()).find(|&o| objects[o].terminated && cells[last(o)] != 0)?;
    Some(format!("object {open} does not end in 0 after {} steps", machine.steps()))
}

/// "Bounds of p are true when p is null or its origin object [low, high) has low <= lower end and upper end <= high";
/// of a terminated one high - 1, which alone a kind 2 pointer has (point 7).
fn bounds_true(routine: &Routine, frame: &Frame, directory: &[u32], v: Var) -> bool {
    let Some(bounds) = frame.rows.declared(routine, v) else { return true };
    if frame.value(v) == 0 {
        return true;
    }
    let origin = frame.origins[usize::from(v)];
    let Some(object) = (origin as usize).checked_sub(1).and_then(|o| routine.objects.get(o)) else {
        return false;
    };
    if routine.kinds[usize::from(v)] == Kind::Terminated && !object.terminated {
        return false;
    }
    let low = object_range(directory, origin).0;
    let value = |end: End| end_value(end, routine.size(v), &frame.values);
    low <= value(bounds.lower) && value(bounds.upper) <= low + i64::from(object.room())
}

#[cfg(test)]
#[path = "claim_tests.rs"]
mod tests;
