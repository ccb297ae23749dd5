//! Kinds of pointers that agree (point 7): most statements that mix them the wrong way are put right.

use super::layout::Layout;
use crate::rng::Rng;
use oracle::draft::{null, Draft, Record};

/// Changes most statements that would be refused by 5 for the kinds of their pointers.
pub fn agree(rng: &mut Rng, draft: &mut Draft, layout: &Layout) {
    for record in &mut draft.statements {
        if mixed(record, layout) && rng.chance(97) {
            *record = unmixed(rng, *record, layout);
        }
    }
}

fn is_terminated(layout: &Layout, v: i32) -> bool {
    layout.terminated.get(v as usize) == Some(&true)
}

/// Whether kinds of pointers meet that may not.
fn mixed(record: &Record, layout: &Layout) -> bool {
    let [kind, a, b, form, right, ..] = *record;
    match kind {
        5 => is_terminated(layout, a) && layout.terminated_objects.get(b as usize) == Some(&false),
        6 | 7 => is_terminated(layout, a) && !is_terminated(layout, b),
        10..=12 => form == 0 && is_terminated(layout, a) != is_terminated(layout, right),
        _ => false,
    }
}

/// The same statement with pointers of one kind; kind 5 becomes kind 4.
fn unmixed(rng: &mut Rng, mut record: Record, layout: &Layout) -> Record {
    let wanted = is_terminated(layout, record[1]);
    let fitting = layout.pointers.iter().copied().filter(|&p| is_terminated(layout, p) == wanted);
    let fitting: Vec<i32> = fitting.collect();
    match record[0] {
        5 => return null(record[1]),
        6 | 7 => record[2] = rng.pick(&fitting),
        _ => record[4] = rng.pick(&fitting),
    }
    record
}
