//! Repairs tried out on the text: what the library says of the repaired one.

use super::Help;
use crate::library::{self, Refusal, Verdict};
use crate::program::Program;
use crate::repair::{apply, edits, Repair};
use crate::table::Table;
use std::ops::Range;

/// The first of the helps whose repair leaves the refusal behind.
pub fn first_that_helps(
    program: &Program,
    refusal: &Refusal,
    mut helps: impl Iterator<Item = Help>,
) -> Option<Help> {
    helps.find(|help| help.repair.as_ref().is_some_and(|repair| helps_with(program, refusal, repair)))
}

fn helps_with(program: &Program, refusal: &Refusal, repair: &Repair) -> bool {
    let Some(text) = &program.text else { return false };
    let map = text.map.routines.get(refusal.routine.unwrap_or(0));
    let repaired = map.and_then(|map| apply(&text.source, &edits(repair, &text.source, map)?));
    repaired.is_some_and(|repaired| progress(program, refusal, repair, repaired).is_some())
}

/// Whether a repaired text is accepted; none where the refusal is not left behind.
pub fn progress(program: &Program, refusal: &Refusal, repair: &Repair, text: String) -> Option<bool> {
    let repaired = Program::of_text(&program.name, text, true).ok()?;
    let routine = refusal.routine.unwrap_or(0);
    match library::check(&repaired.tables, &repaired.facts).ok()?.verdict {
        Verdict::Accepted => Some(true),
        Verdict::Refused(next) => {
            let [old, new] = [program, &repaired].map(|program| program.text.as_ref()?.parts.get(routine));
            let mut changed = changed(refusal, repair);
            if refusal.number == 13 {
                // Its blocks were walked: what is written there is shown there.
                changed.end = changed.end.max(refusal.place + old?.extent(refusal.place));
            }
            is_behind(old?, refusal, changed, new?, &next).then_some(false)
        }
    }
}

/// The statements that a repair is about.
fn changed(refusal: &Refusal, repair: &Repair) -> Range<usize> {
    let refused = refusal.place;
    let alone = refused..refused + 1;
    match repair {
        Repair::AsOne { first, count, .. } | Repair::Bundle { first, count, .. } => {
            *first.min(&refused)..(first + count).max(refused + 1)
        }
        Repair::Move { before, .. } => *before.min(&refused)..refused + 1,
        Repair::MoveBehind { behind, .. } => refused..behind + 1,
        Repair::Several(repairs) => repairs.iter().fold(alone, |all, repair| {
            let one = changed(refusal, repair);
            all.start.min(one.start)..all.end.max(one.end)
        }),
        _ => alone,
    }
}

/// Whether a refusal stands behind these statements, which had so many behind them, or is one of a head around them, which is found later.
fn is_behind(old: &Table, refusal: &Refusal, changed: Range<usize>, new: &Table, next: &Refusal) -> bool {
    let Some(end) = (new.statements.len() + changed.end).checked_sub(old.statements.len()) else {
        return false;
    };
    let head = new.statements.get(next.place);
    // The end of a bundle comes behind the accesses in it.
    let is_later = head.is_some_and(|head| head[0] != 13 || refusal.number == 9);
    let is_around = is_later && next.place + new.extent(next.place) >= end;
    matches!(next.number, 7..=16) && (next.place >= end || next.place < changed.start && is_around)
}
