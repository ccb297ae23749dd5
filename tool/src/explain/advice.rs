//! Advice for a routine that is refused. Each is tried out: the second implementation walks the repaired table, and only what gets past the
//! refused statement is said.

use super::bounds::lacking;
use super::draft::Draft;
use super::walk::{Unshown, Walk};
use super::{Help, Place};
use crate::repair::Repair;
use crate::table::Table;
use crate::tree::Relation;
use oracle::checker::Asked;

/// More checks than these are no advice.
const MOST_CHECKS: usize = 4;
/// Nor are more statements in a bundle.
const MOST_BUNDLED: usize = 4;

/// A dynamic check that a routine lacks.
pub struct Check {
    /// The statement that it has to come before.
    pub before: usize,
    pub condition: [i32; 4],
}

impl Check {
    /// The condition as it is asked earlier, before another statement: n >= k by what n loses in between.
    pub fn at(&self, table: &Table, earlier: usize) -> [i32; 4] {
        let [n, relation, form, k] = self.condition;
        if (relation, form) != (Relation::GreaterEqual as i32, 1) {
            return self.condition;
        }
        let between = table.statements.get(earlier..self.before).unwrap_or_default();
        let lost = between.iter().filter(|record| matches!(record, [2, x, y, ..] if *x == n && *y == n));
        [n, relation, form, lost.fold(k, |k, record| k.saturating_sub(record[3])).max(0)]
    }
}

/// A bundle with its neighbours that shows the bounds after a refused statement.
pub fn bundled(place: &Place, refused: usize) -> Option<Help> {
    let routine = Draft::of(place);
    let mut groups = groups(&routine.table, refused).into_iter();
    let alone = groups.find(|&(first, count)| passes(&routine.with_bundle(first, count), first));
    alone.map(|group| in_one(place, group, Vec::new()))
}

/// Checks before a refused statement that show the bounds after it, or a bundle with its neighbours and checks before that.
pub fn checked(place: &Place, refused: usize) -> Option<Help> {
    let routine = Draft::of(place);
    if let Some((at, conditions)) = checks(&routine, refused) {
        return Some(checks_before(place, at, &conditions));
    }
    groups(&routine.table, refused).into_iter().find_map(|group| {
        let (at, conditions) = checks(&routine.with_bundle(group.0, group.1), group.0)?;
        (at == group.0).then(|| in_one(place, group, written(place, &conditions)))
    })
}

/// Checks before a statement.
fn checks_before(place: &Place, statement: usize, conditions: &[[i32; 4]]) -> Help {
    let written = written(place, conditions);
    let message = format!("write {} before {}", written.join(" "), place.line(statement));
    Help { message, repair: Some(Repair::Before { statement, written }) }
}

/// Where a help writes checks, which runs they stop.
pub fn saying_stops(mut help: Help) -> Help {
    let stops = help.repair.as_ref().map_or(Vec::new(), Repair::stops);
    if !stops.is_empty() {
        let stop = if stops.len() == 1 { "it stops" } else { "they stop" };
        help.message.push_str(&format!("; {stop} a run where {}", stops.join(" or ")));
    }
    help
}

/// `dynamic_check(n >= 1);` for each condition.
fn written(place: &Place, conditions: &[[i32; 4]]) -> Vec<String> {
    let check = |condition: &[i32; 4]| format!("dynamic_check({});", place.printer.condition(*condition));
    conditions.iter().map(check).collect()
}

/// Conditions that are all that a refused statement lacks, and the statement before which they are to be tested. A run that stops
/// inside of a bundle may leave bounds untrue, so the head of a bundle comes first.
fn checks(routine: &Draft, refused: usize) -> Option<(usize, Vec<[i32; 4]>)> {
    let table = &routine.table;
    let mut trial = Trial::of(routine, refused, &[], refused);
    for check in lacking(table, &trial.seen, refused) {
        let at_head = table.bundle_around(check.before).map(|head| (head, check.at(table, head)));
        let mut places = at_head.into_iter().chain([(check.before, check.condition)]);
        let suffices = |&(at, condition): &_| Trial::of(routine, at, &[condition], refused).passes;
        if let Some((at, condition)) = places.find(suffices) {
            return Some((at, vec![condition]));
        }
    }
    let at = table.bundle_around(refused).unwrap_or(refused);
    let mut conditions = Vec::new();
    while conditions.len() < MOST_CHECKS {
        let written = conditions.len();
        let tried = &trial.routine.table;
        let next = lacking(tried, &trial.seen, refused + written).into_iter().next()?;
        conditions.push(next.at(tried, at + written));
        trial = Trial::of(routine, at, &conditions, refused);
        if trial.passes {
            return Some((at, without_needless(routine, at, conditions, refused)));
        }
    }
    None
}

/// The conditions without those that a later one makes needless.
fn without_needless(
    routine: &Draft,
    at: usize,
    mut conditions: Vec<[i32; 4]>,
    refused: usize,
) -> Vec<[i32; 4]> {
    for number in (0..conditions.len()).rev() {
        let mut fewer = conditions.clone();
        fewer.remove(number);
        if Trial::of(routine, at, &fewer, refused).passes {
            conditions = fewer;
        }
    }
    conditions
}

/// A routine with checks written before a statement.
struct Trial {
    routine: Draft,
    seen: Walk,
    /// Whether the walk came past the refused statement.
    passes: bool,
}

impl Trial {
    fn of(routine: &Draft, at: usize, conditions: &[[i32; 4]], refused: usize) -> Trial {
        let routine = routine.with_checks(at, conditions);
        let seen = routine.walk(Some(at + conditions.len()));
        let can_hold = facts_can_hold(&seen);
        let refused = if refused < at { refused } else { refused + conditions.len() };
        let passes = can_hold && gets_past(&routine, refused, &seen);
        Trial { routine, seen, passes }
    }
}

/// Whether conditions can hold before a statement: checks that never do would let everything pass, and stop every run.
pub fn can_hold(routine: &Draft, at: usize, conditions: &[[i32; 4]]) -> bool {
    facts_can_hold(&routine.with_checks(at, conditions).walk(Some(at + conditions.len())))
}

fn facts_can_hold(seen: &Walk) -> bool {
    seen.asked.as_ref().is_some_and(|moment| !moment.facts.contradictory())
}

/// Runs of plain statements of one block, outside of bundles, with the refused one among them: the first and how many. Short ones
/// come first, and those that begin with the refused statement.
fn groups(table: &Table, refused: usize) -> Vec<(usize, usize)> {
    if table.bundle_around(refused).is_some() {
        return Vec::new();
    }
    let block = table.block_around(refused);
    let is_plain = |s: usize| matches!(table.statements[s][0], 1..=10 | 14);
    let group = |count: usize| (0..count).filter_map(move |back| Some((refused.checked_sub(back)?, count)));
    let groups = (2..=MOST_BUNDLED).flat_map(group);
    let inside = |&(first, count): &(usize, usize)| first >= block.start && first + count <= block.end;
    groups.filter(inside).filter(|&(first, count)| (first..first + count).all(is_plain)).collect()
}

/// `put both in one bundled { .. }`, with checks before it; an assignment and the where for its target are written as one.
fn in_one(place: &Place, (first, count): (usize, usize), checks: Vec<String>) -> Help {
    let printer = &place.printer;
    let statements: Vec<String> = (first..first + count).map(|s| printer.statement(s)).collect();
    let records = &printer.table.statements[first..first + count];
    let (mut message, repair) = match records {
        [[4..=7, target, ..], [14, p, row, ..]] if target == p => {
            let bounds = printer.row_to_write(*p, *row);
            let written = format!("{} where {} : {bounds};", statements[0], printer.name(*p));
            let message = format!("write it as one: {written}");
            (message, Repair::AsOne { first, count, before: checks.clone(), written })
        }
        _ => {
            let which = if count == 2 { "both" } else { "these" };
            let message = format!("put {which} in one bundled {{ {}; }}", statements.join("; "));
            (message, Repair::Bundle { first, count, before: checks.clone(), last: Vec::new() })
        }
    };
    if !checks.is_empty() {
        message.push_str(&format!(", with {} before it", checks.join(" ")));
    }
    Help { message, repair: Some(repair) }
}

/// A pointer that has one row on one way through a head and another on the other; -1 is its own bound.
pub struct Differing {
    pub pointer: usize,
    pub rows: [i32; 2],
}

/// Where statements that give the two ways through a head the same rows: behind the then and the else block, or at the end and at the
/// head of a body.
pub fn same_rows(place: &Place, head: usize, differing: &[Differing]) -> Option<Help> {
    let table = place.printer.table;
    // The rows of the first way, written on the second one, or the other way round; no statement declares a variable's own bound.
    let written = |way: usize| differing.iter().map(move |one| (one.pointer as i32, one.rows[way]));
    let ways = [0, 1].into_iter().filter(|&way| written(way).all(|(_, row)| row >= 0));
    let is_while = table.statements[head][0] == 12;
    ways.filter(|way| !is_while || *way == 0).find_map(|way| {
        let (mut repaired, mut at) = (Draft::of(place), head);
        let mut listed = Vec::new();
        for (p, row) in written(way) {
            let record = [14, p, row, 0, 0, 0, 0];
            if is_while {
                repaired = repaired.with_before(at, record);
                at += 1;
            } else {
                repaired = repaired.with_last(at, 6 - way, record);
            }
            listed.push(format!("{} : {}", place.printer.name(p), place.printer.row_to_write(p, row)));
        }
        let written = format!("where {};", listed.join(" and "));
        let (message, repair) = match table.statements[head] {
            [12, ..] => {
                let message = format!("write {written} before {}", place.line(head));
                (message, Some(Repair::Before { statement: head, written: vec![written] }))
            }
            [.., 0] if way == 0 => {
                (format!("add else {{ {written} }}"), Some(Repair::Else { head, written }))
            }
            _ => {
                let message = format!("write {written} at the end of the {} block", ["else", "then"][way]);
                let last = table.last_of_block(head, 6 - way);
                (message, last.map(|statement| Repair::Behind { statement, written }))
            }
        };
        passes(&repaired, at).then_some(Help { message, repair })
    })
}

fn passes(repaired: &Draft, statement: usize) -> bool {
    gets_past(repaired, statement, &repaired.walk(None))
}

/// Whether a walk came past a statement with its blocks: a refusal at a smaller number is one at a head around it, which is found later.
fn gets_past(repaired: &Draft, statement: usize, seen: &Walk) -> bool {
    let end = statement + repaired.table.extent(statement);
    match &seen.answer {
        Ok(()) => true,
        Err(refusal) => {
            // The place of a refused entry is the entry: its loop tells how far the walk came.
            let head = seen.unshown.as_ref().map(|unshown| unshown.entry.head);
            let place = head.unwrap_or(refusal.place as usize);
            refusal.cause >= 7 && (place < statement || place >= end)
        }
    }
}

/// A check before the loop that shows an entry of the list there.
pub fn for_entry(place: &Place, entry: usize) -> Option<Help> {
    let routine = Draft::of(place);
    let asked = routine.walk(None).unshown?.asked;
    let &[head, x, y, k] = routine.facts.chunks_exact(4).nth(entry)? else { return None };
    let condition = condition(&routine.table, x, y, k).filter(|_| asked == Asked::BeforeLoop)?;
    let [left, relation, form, right] = condition;
    let head = head as usize;
    let repaired = routine.with_before(head, [10, left, relation, form, right, 0, 0]);
    let seen = repaired.walk(Some(head + 1));
    let can_hold = facts_can_hold(&seen);
    let still = |unshown: Unshown| unshown.asked == Asked::BeforeLoop && unshown.entry.head == head + 1;
    (can_hold && !seen.unshown.is_some_and(still)).then(|| checks_before(place, head, &[condition]))
}

/// The condition that is the fact x <= y + k, where one is.
fn condition(table: &Table, x: i32, y: i32, k: i32) -> Option<[i32; 4]> {
    let [less, less_equal, greater_equal, equal, not_equal] =
        [Relation::Less, Relation::LessEqual, Relation::GreaterEqual, Relation::Equal, Relation::NotEqual]
            .map(|relation| relation as i32);
    match (x, y, k) {
        (_, -1, 0) if table.is_pointer(x) => Some([x, equal, 1, 0]),
        (-1, _, -1) if table.is_pointer(y) => Some([y, not_equal, 1, 0]),
        (-1, _, ..0) if !table.is_pointer(y) => Some([y, greater_equal, 1, -k]),
        (0.., -1, 0..) if !table.is_pointer(x) => Some([x, less_equal, 1, k]),
        (0.., 0.., 0) => Some([x, less_equal, 0, y]),
        (0.., 0.., -1) => Some([x, less, 0, y]),
        _ => None,
    }
}
