//! Which statements may change places, so that a run computes what it did: what each reads and sets. An access that comes too early in a bundle is moved so.

use super::advice::{can_hold, Check};
use super::bounds::may_wrap;
use super::draft::Draft;
use super::trial::first_that_helps;
use super::{Help, Place};
use crate::library::Refusal;
use crate::program::Program;
use crate::repair::Repair;
use crate::table::{accessed, Table, STATEMENT_WORDS};
use crate::tree::Relation;

type Record = [i32; STATEMENT_WORDS];

/// Whether values and cells are the same when two plain statements change places.
fn keep_values(table: &Table, one: usize, other: usize) -> bool {
    let [one, other] = [one, other].map(|s| &table.statements[s]);
    let sets_for = |setter: &Record, other: &Record| {
        target(setter).is_some_and(|x| reads(other).contains(&x) || target(other) == Some(x))
    };
    // What is stored may be read, and is not stored where the run stops before.
    let stores_for = |store: &Record, other: &Record| store[0] == 9 && may_stop(other);
    !sets_for(one, other) && !sets_for(other, one) && !stores_for(one, other) && !stores_for(other, one)
}

/// Whether the bounds of accesses are the same too.
fn keep_bounds(table: &Table, one: usize, other: usize) -> bool {
    let [one, other] = [one, other].map(|s| &table.statements[s]);
    let bounds_for = |setter: &Record, access: &Record| match (*setter, *access) {
        ([14, p, ..], [14, q, ..]) => p == q,
        ([14, p, ..], [8 | 9, ..]) => accessed(access).0 == p,
        (_, [8 | 9, ..]) => {
            target(setter).is_some_and(|x| bounded_by(table, accessed(access).0).contains(&x))
        }
        _ => false,
    };
    !bounds_for(one, other) && !bounds_for(other, one)
}

/// Whether a run does the same when two groups of plain statements change places.
pub fn may_change_places(table: &Table, one: &[usize], other: &[usize]) -> bool {
    let mut pairs = one.iter().flat_map(|&s| other.iter().map(move |&t| (s, t)));
    pairs.all(|(s, t)| keep_values(table, s, t) && keep_bounds(table, s, t))
}

/// The variable that a plain statement sets.
fn target(record: &Record) -> Option<i32> {
    matches!(record[0], 1..=8).then_some(record[1])
}

/// The variables that a plain statement reads.
fn reads(record: &Record) -> Vec<i32> {
    match *record {
        [2 | 6, _, y, ..] => vec![y],
        [3 | 7, _, y, z, ..] => vec![y, z],
        [8, _, p, i, ..] => vec![p, i],
        [9, p, i, _, x, ..] => vec![p, i, x],
        [10, left, _, 0, right, ..] => vec![left, right],
        [10, left, ..] => vec![left],
        _ => Vec::new(),
    }
}

/// Whether a run can stop at a plain statement.
fn may_stop(record: &Record) -> bool {
    matches!(*record, [7..=10, ..]) || matches!(*record, [6, _, _, k, ..] if k != 0)
}

/// The variables that any bounds of a pointer name.
fn bounded_by(table: &Table, p: i32) -> Vec<i32> {
    let row = |record: &Record| match *record {
        [14, q, row, ..] if q == p => table.row(row as usize),
        _ => None,
    };
    let rows = table.statements.iter().filter_map(row).chain([table.own_bounds(p as usize)]);
    rows.flat_map(|[q, n, _, r, m, _]| [q, n, r, m]).collect()
}

/// What lets an access stand that is refused in its bundle (9): behind what restores the bounds, with checks where that may wrap, or before what changes them.
pub fn moved_access(
    program: &Program,
    place: &Place,
    changed: Option<usize>,
    refusal: &Refusal,
) -> Option<Help> {
    let (table, access) = (place.printer.table, refusal.place);
    let head = table.bundle_around(access)?;
    let passed = |others: std::ops::Range<usize>| others.into_iter().all(|s| keep_values(table, access, s));
    let behind = (access + 1..head + table.extent(head)).take_while(|&last| passed(access + 1..last + 1));
    let helps = behind.flat_map(|last| {
        let checks = not_wrapping(place, head, last);
        let each = checks.iter().map(|check| vec![check.clone()]);
        let all = [Vec::new()].into_iter().chain(each).chain((checks.len() > 1).then(|| checks.clone()));
        all.map(|checks| move_behind(place, access, last, head, checks)).collect::<Vec<Help>>()
    });
    let before = changed.filter(|&first| passed(first..access)).map(|first| Help {
        message: format!("move the access before {}", place.line(first)),
        repair: Some(Repair::Move { statement: access, before: first }),
    });
    first_that_helps(program, refusal, helps.chain(before))
}

fn move_behind(place: &Place, access: usize, last: usize, head: usize, checks: Vec<String>) -> Help {
    let moved = Repair::MoveBehind { statement: access, behind: last };
    let message = format!("move the access behind {}", place.line_and_text(last));
    if checks.is_empty() {
        return Help { message, repair: Some(moved) };
    }
    let message = format!("{message}, and write {} before {}", checks.join(" "), place.line(head));
    Help {
        message,
        repair: Some(Repair::Several(vec![Repair::Before { statement: head, written: checks }, moved])),
    }
}

/// Checks before a bundle that its statements up to the last one lower no integer below 0.
fn not_wrapping(place: &Place, head: usize, last: usize) -> Vec<String> {
    let (routine, table) = (Draft::of(place), place.printer.table);
    let lowered = (head + 1..=last).filter_map(|s| Some((s, may_wrap(table, s).filter(|(_, k)| *k < 0)?)));
    let conditions = lowered.map(|(before, (n, k))| {
        Check { before, condition: [n, Relation::GreaterEqual as i32, 1, -k as i32] }.at(table, head)
    });
    let holding = conditions.filter(|condition| can_hold(&routine, head, &[*condition]));
    holding.map(|condition| format!("dynamic_check({});", place.printer.condition(condition))).collect()
}
