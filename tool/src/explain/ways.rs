//! Ways round a refusal that keep every run as it is: more statements in one bundle, bounds declared before and behind an assignment, the loop
//! fact that a loop has lost. Each is tried out on the text.

use super::advice::{can_hold, Differing};
use super::bounds::lacking;
use super::draft::Draft;
use super::lost::{self, lost_at, Fact};
use super::order::may_change_places;
use super::{Help, Place};
use crate::repair::Repair;
use crate::rows::InForce;
use crate::table::Table;
use crate::tree::Relation;
use oracle::facts::{Facts, ZERO};

/// So many neighbours are put in one bundle at most, and so many statements.
const MOST_UNITS: usize = 3;
const MOST_STATEMENTS: usize = 16;

/// A refused bundle, or an assignment with its bounds, in one bundle with neighbours; of two also the other way round.
pub fn joined(place: &Place, refused: usize) -> Vec<Help> {
    let table = place.printer.table;
    let units = units(table, refused);
    let Some(at) = units.iter().position(|unit| unit.contains(&refused)) else { return Vec::new() };
    let mut helps = Vec::new();
    for count in 2..=MOST_UNITS {
        for first in (at + 1).saturating_sub(count)..=at {
            let Some(group) = units.get(first..first + count) else { continue };
            let is_plain = group.iter().all(|unit| unit.len() == 1);
            let turned =
                (count == 2 && may_turn(table, group)).then(|| group.iter().rev().cloned().collect());
            let orders = [(!is_plain).then(|| group.to_vec()), turned];
            helps.extend(
                orders.into_iter().flatten().filter_map(|order: Vec<_>| in_order(place, group, &order)),
            );
        }
    }
    helps
}

/// Whether a run does the same when two neighbours change places.
fn may_turn(table: &Table, group: &[Unit]) -> bool {
    let [one, other] = [0, 1].map(|number| plain(table, &group[number]));
    may_change_places(table, &one, &other)
}

/// The statements of a unit without the head of a bundle.
fn plain(table: &Table, unit: &Unit) -> Vec<usize> {
    unit.clone().filter(|&s| table.statements[s][0] != 13).collect()
}

type Unit = std::ops::Range<usize>;

/// The plain statements and bundles of the block around a statement, as far as they are neighbours of it.
fn units(table: &Table, statement: usize) -> Vec<Unit> {
    let inside = table.bundle_around(statement).unwrap_or(statement);
    let block = table.block_around(inside);
    let next = |s: &usize| Some(s + table.extent(*s)).filter(|next| *next < block.end);
    let starts = std::iter::successors(Some(block.start), next);
    let units: Vec<Unit> = starts.map(|start| start..start + table.extent(start)).collect();
    let is_joinable = |unit: &Unit| matches!(table.statements[unit.start][0], 1..=10 | 13 | 14);
    let parts = units.split(|unit| !is_joinable(unit));
    parts.into_iter().find(|part| part.iter().any(|unit| unit.contains(&inside))).unwrap_or_default().to_vec()
}

/// `bundled { a; b; }` in place of a group, in this order.
fn in_order(place: &Place, group: &[Unit], order: &[Unit]) -> Option<Help> {
    let table = place.printer.table;
    let statements: Vec<usize> = order.iter().flat_map(|unit| plain(table, unit)).collect();
    let (first, last) = (group.first()?.start, group.last()?.end);
    let texts: Vec<String> = statements.iter().map(|&s| format!("{};", place.printer.statement(s))).collect();
    let written = format!("bundled {{ {} }}", texts.join(" "));
    let lines = lines(place, first, last - 1);
    let repair = Repair::AsOne { first, count: last - first, before: Vec::new(), written: written.clone() };
    let message = format!("in place of {lines} write {written}");
    (statements.len() <= MOST_STATEMENTS).then_some(Help { message, repair: Some(repair) })
}

/// Of n = k, where n is a count: the bounds counted by k before it, and by n again behind it. The second help has a check, for where k <= n is not known.
pub fn recounted(place: &Place, refused: usize) -> Option<(Help, Option<Help>)> {
    let (printer, table) = (&place.printer, place.printer.table);
    let (n, k, condition) = match table.statements[refused] {
        [1, n, k, ..] => (n, (k as u32).to_string(), [n, Relation::GreaterEqual as i32, 1, k]),
        [2, n, k, 0, ..] if n != k => (n, printer.name(k).to_string(), [k, Relation::LessEqual as i32, 0, n]),
        _ => return None,
    };
    let rows = InForce::before(table, refused);
    let pointers = (0..table.variables.len()).filter(|&p| table.is_pointer(p as i32));
    let counted: Vec<&str> = pointers
        .filter(|&p| rows.bounds(table, p) == [p as i32, -1, 0, p as i32, n, 0])
        .map(|p| printer.name(p as i32))
        .collect();
    if counted.is_empty() || table.bundle_around(refused).is_some() {
        return None;
    }
    let declared = |count: &str| {
        let listed: Vec<String> = counted.iter().map(|name| format!("{name} : count({count})")).collect();
        format!("where {};", listed.join(" and "))
    };
    let (before, behind) = (declared(&k), declared(printer.name(n)));
    let check = format!("dynamic_check({});", printer.condition(condition));
    let help = |checks: Vec<String>| {
        let written: Vec<String> = checks.into_iter().chain([before.clone()]).collect();
        let line = place.line(refused);
        let message = format!("write {} before {line} and {behind} behind it", written.join(" "));
        let before = Repair::Before { statement: refused, written };
        let behind = Repair::Behind { statement: refused, written: behind.clone() };
        Help { message, repair: Some(Repair::Several(vec![before, behind])) }
    };
    let checked = can_hold(&Draft::of(place), refused, &[condition]).then(|| help(vec![check]));
    Some((help(Vec::new()), checked))
}

/// Of p = p + k and n = n - k, where n counts p and k is not needed any more: a loop that steps both by one, with the loop fact that it needs; with a check
/// where k <= n is not known.
pub fn stepped(place: &Place, refused: usize) -> Vec<Help> {
    let (printer, table) = (&place.printer, place.printer.table);
    let pair = |first: usize| {
        let (one, other) = (table.statements.get(first)?, table.statements.get(first + 1)?);
        let (moved, counted) = if one[0] == 7 { (one, other) } else { (other, one) };
        let ([7, p, q, k, ..], [3, n, m, l, 1, ..]) = (*moved, *counted) else { return None };
        let is_count = InForce::before(table, first).bounds(table, p as usize) == [p, -1, 0, p, n, 0];
        let same_block = table.block_around(first) == table.block_around(first + 1);
        let is_alone = table.bundle_around(first).is_none() && !is_needed(table, first, k);
        ((p, n, k) == (q, m, l) && is_count && same_block && is_alone).then_some((first, [p, n, k]))
    };
    let Some((first, names)) = pair(refused).or_else(|| pair(refused.checked_sub(1)?)) else {
        return Vec::new();
    };
    let [p, n, k] = names.map(|variable| printer.name(variable));
    let written = format!(
        "while ({k} > 0) where {k} <= {n} {{ bundled {{ {p} = {p} + 1; {n} = {n} - 1; }} {k} = {k} - 1; }}"
    );
    let help = |before: Vec<String>| {
        let checks: String = before.iter().map(|check| format!("{check} ")).collect();
        let lines = lines(place, first, first + 1);
        let message = format!("in place of {lines} write {checks}{written}");
        let repair = Repair::AsOne { first, count: 2, before, written: written.clone() };
        Help { message, repair: Some(repair) }
    };
    let [_, number, step] = names;
    let can_hold = can_hold(&Draft::of(place), first, &[[step, Relation::LessEqual as i32, 0, number]]);
    let checked = can_hold.then(|| help(vec![format!("dynamic_check({k} <= {n});")]));
    [help(Vec::new())].into_iter().chain(checked).collect()
}

/// Whether a variable is named behind two statements, or anywhere in a loop around them.
fn is_needed(table: &Table, first: usize, variable: i32) -> bool {
    let loops =
        (0..first).filter(|&head| table.statements[head][0] == 12 && first < head + table.extent(head));
    let from = loops.min().unwrap_or(first + 2);
    let names = |s: usize| s != first && s != first + 1 && table.statements[s][1..].contains(&variable);
    (from..table.statements.len()).any(names)
}

/// `line 8` or `lines 8 to 9`.
fn lines(place: &Place, first: usize, last: usize) -> String {
    match (place.statement(first), place.statement(last)) {
        (Some(from), Some(to)) if from.line < to.line => format!("lines {} to {}", from.line, to.line),
        _ => place.line(first),
    }
}

/// A fact that a refused statement lacks and that a loop before it lost: the loop, and the fact as an entry of its list.
pub struct Kept {
    pub head: usize,
    pub entry: [i32; 3],
}

impl Kept {
    /// ``n <= room` was known up to line 7; the loop assigns n and room`.
    pub fn note(&self, place: &Place) -> String {
        let [x, y, k] = self.entry;
        let known = lost::note(place, self.head);
        format!("`{}` {}", place.printer.fact(x, y, i64::from(k)), known.trim_start_matches("it "))
    }
}

/// Facts that a refused statement lacks, also of variables that are known to be equal there, and that a loop has lost.
pub fn lost_by_loop(place: &Place, refused: usize) -> Vec<Kept> {
    let routine = Draft::of(place);
    let seen = routine.walk(None);
    let lost = |entry: [i32; 3]| {
        let fact = Fact { x: node(entry[0]), y: node(entry[1]), k: i64::from(entry[2]) };
        let head = lost_at(&routine, fact)?;
        (routine.table.statements[head][0] == 12).then_some(Kept { head, entry })
    };
    let facts = seen.after.as_ref().map(|moment| &moment.facts);
    let lacking = lacking(&routine.table, &seen, refused);
    let entries = lacking.iter().filter_map(|check| entry_of(check.condition));
    let equal =
        entries.flat_map(|entry| facts.map_or(vec![entry], |facts| of_equals(&routine.table, facts, entry)));
    equal.filter_map(lost).collect()
}

fn node(variable: i32) -> usize {
    usize::try_from(variable).unwrap_or(ZERO)
}

/// x <= y + k that is a condition.
fn entry_of([left, relation, form, right]: [i32; 4]) -> Option<[i32; 3]> {
    const RELATIONS: [Relation; 3] = [Relation::LessEqual, Relation::Less, Relation::GreaterEqual];
    match (form, RELATIONS.iter().position(|one| *one as i32 == relation)?) {
        (0, 0) => Some([left, right, 0]),
        (0, 1) => Some([left, right, -1]),
        (1, 0) => Some([left, -1, right]),
        (1, 2) => Some([-1, left, right.checked_neg()?]),
        _ => None,
    }
}

/// The same fact of each variable that is known to be x and a number.
fn of_equals(table: &Table, facts: &Facts, [x, y, k]: [i32; 3]) -> Vec<[i32; 3]> {
    let others = (0..table.variables.len() as i32).filter(|v| x != -1 && *v != x && !table.is_pointer(*v));
    let equals = others.filter_map(|v| {
        let (there, back) = (facts.sum(node(x), node(v)), facts.sum(node(v), node(x)));
        let constant = i32::try_from(i64::from(k) - there).ok()?;
        (there + back == 0).then_some([v, y, constant])
    });
    [[x, y, k]].into_iter().chain(equals).collect()
}

/// Loop facts that would keep what a loop lost.
pub fn kept(place: &Place, refused: usize) -> Vec<Help> {
    let help = |Kept { head, entry: [x, y, k] }: Kept| {
        let mut facts = place.printer.facts_of(head);
        let fact = place.printer.fact(x, y, i64::from(k));
        let message = format!("write where {fact} behind the condition of {}", place.line(head));
        facts.push(fact);
        Help { message, repair: Some(Repair::Facts { head, facts }) }
    };
    lost_by_loop(place, refused).into_iter().map(help).collect()
}

/// Where statements at the end of both blocks of an if: `count(0)` where the pointers have no use behind it, so that nothing has to be shown; else
/// the bounds of each pointer's own record.
pub fn on_both_sides(place: &Place, head: usize, differing: &[Differing]) -> Vec<Help> {
    let (printer, table) = (&place.printer, place.printer.table);
    if table.statements[head][0] != 11 {
        return Vec::new();
    }
    let listed = |bounds: &dyn Fn(i32) -> String| {
        let pointers = differing.iter().map(|one| one.pointer as i32);
        let listed: Vec<String> = pointers.map(|p| format!("{} : {}", printer.name(p), bounds(p))).collect();
        format!("where {};", listed.join(" and "))
    };
    let is_free = differing.iter().all(|one| !is_used_behind(table, head, one.pointer as i32));
    let names: Vec<&str> = differing.iter().map(|one| printer.name(one.pointer as i32)).collect();
    let reason = format!("behind it no cell is reached by {}: ", lost::joined(&names));
    let none = is_free.then(|| at_both_ends(place, head, reason, listed(&|_| "count(0)".to_string())));
    let own = at_both_ends(place, head, String::new(), listed(&|p| printer.declared(p)));
    none.into_iter().chain([own]).flatten().collect()
}

/// A where at the end of both blocks of an if.
fn at_both_ends(place: &Place, head: usize, reason: String, written: String) -> Option<Help> {
    let table = place.printer.table;
    let at_end = |field: usize| {
        let statement = table.last_of_block(head, field)?;
        Some(Repair::Behind { statement, written: written.clone() })
    };
    let (other, message) = match table.statements[head][6] {
        0 => (Repair::Else { head, written: written.clone() }, "at the end of the then block and add else"),
        _ => (at_end(6)?, "at the end of the then block and of the else block"),
    };
    let behind = if table.statements[head][6] == 0 { format!(" {{ {written} }}") } else { String::new() };
    let message = format!("{reason}write {written} {message}{behind}");
    Some(Help { message, repair: Some(Repair::Several(vec![at_end(5)?, other])) })
}

/// Whether the bounds of a pointer are needed behind a head, before it gets another address with bounds of its own.
fn is_used_behind(table: &Table, head: usize, p: i32) -> bool {
    let uses = |s: usize| match table.statements[s] {
        [8, _, q, ..] | [9, q, ..] | [6 | 7, _, q, ..] | [14, q, ..] => q == p,
        _ => false,
    };
    let is_in_loop =
        (0..head).any(|outer| table.statements[outer][0] == 12 && head < outer + table.extent(outer));
    let block = table.block_around(head);
    let is_declared_anew = |s: usize| {
        let bundle = table.bundle_around(s).filter(|bundle| table.block_around(*bundle) == block);
        matches!(table.statements[s], [14, q, ..] if q == p)
            && bundle.is_some_and(|bundle| bundle < s - 1 && table.target(s - 1) == Some(p) && !uses(s - 1))
    };
    let first = (head + table.extent(head)..table.statements.len()).find(|&s| uses(s));
    is_in_loop || first.is_some_and(|first| !is_declared_anew(first))
}
