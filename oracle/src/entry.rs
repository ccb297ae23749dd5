//! What a run is lent: the entry, causes 10 to 12 and 16.

use crate::answer::{Refusal, RunInput};
use crate::table::{End, Kind, Routine, Var};

pub const MAX_CELLS: usize = 16_777_216;

/// The object as the half-open range of its cells.
pub(crate) fn object_range(directory: &[u32], origin: u32) -> (i64, i64) {
    let pair = 2 * (origin as usize - 1);
    let low = i64::from(directory[pair]);
    (low, low + i64::from(directory[pair + 1]))
}

/// The value of an end of a pointer with this element size: a whole number, never wrapped.
pub(crate) fn end_value(end: End, size: i64, values: &[u32]) -> i64 {
    let integer = end.integer.map_or(0, |i| i64::from(values[usize::from(i)]));
    i64::from(values[usize::from(end.pointer)]) + size * integer + i64::from(end.constant)
}

/// What a run is lent, looked at.
#[derive(Clone, Copy)]
pub struct Lent<'a> {
    pub directory: &'a [u32],
    pub cells: &'a [u32],
    pub values: &'a [u32],
    pub origins: &'a [u32],
}

impl<'a> From<&'a RunInput> for Lent<'a> {
    fn from(input: &'a RunInput) -> Lent<'a> {
        let RunInput { directory, cells, values, origins, .. } = input;
        Lent { directory, cells, values, origins }
    }
}

/// Causes 10 to 12, in the paper's row order, then 16.
pub fn check_entry<'a>(routine: &Routine, input: impl Into<Lent<'a>>) -> Result<(), Refusal> {
    let input: Lent = input.into();
    if input.cells.len() > MAX_CELLS || input.directory.len() != 2 * routine.objects.len() {
        return Err(Refusal::at(10, 0));
    }
    // The first free cell after the pair before; cell 0 is in no object.
    let mut free = 1i64;
    for (o, pair) in input.directory.chunks_exact(2).enumerate() {
        let (offset, length) = (i64::from(pair[0]), i64::from(pair[1]));
        let outside = offset + length > input.cells.len() as i64;
        if offset < free || outside || pair[1] != routine.objects[o].length {
            return Err(Refusal::at(10, o));
        }
        free = offset + length;
    }
    let variables = routine.kinds.len();
    if input.values.len() != variables || input.origins.len() != variables {
        return Err(Refusal::at(11, 0));
    }
    if let Some(v) = (0..variables).find(|&v| !entry_true(routine, &input, v)) {
        return Err(Refusal::at(12, v));
    }
    // Point 7: "when such a last cell is not 0 at entry, giving the lowest such object".
    let last = |o: usize| (input.directory[2 * o] + input.directory[2 * o + 1]) as usize - 1;
    let unfit = |&o: &usize| routine.objects[o].terminated && input.cells[last(o)] != 0;
    match (0..routine.objects.len()).find(unfit) {
        Some(o) => Err(Refusal::at(16, o)),
        None => Ok(()),
    }
}

/// Cause 12 of one variable: a right origin, and true bounds.
fn entry_true(routine: &Routine, input: &Lent, v: usize) -> bool {
    let origin = input.origins[v];
    if routine.kinds[v] == Kind::Integer || input.values[v] == 0 {
        return origin == 0;
    }
    if origin == 0 || origin as usize > routine.objects.len() {
        return false;
    }
    let object = routine.objects[origin as usize - 1];
    // Point 7: true "only when it is null or its origin is a terminated object".
    if routine.kinds[v] == Kind::Terminated && !object.terminated {
        return false;
    }
    let low = object_range(input.directory, origin).0;
    let bounds = routine.bounds[v].expect("a pointer has bounds");
    let value = |end: End| end_value(end, routine.size(v as Var), input.values);
    low <= value(bounds.lower) && value(bounds.upper) <= low + i64::from(object.room())
}
