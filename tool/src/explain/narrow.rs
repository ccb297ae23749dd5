//! Bounds that are known behind a refused statement, declared in place of those that are not shown.

use super::bounds::{may_wrap, unshown};
use super::draft::Draft;
use super::walk::Moment;
use super::{Help, Place};
use crate::library::Refusal;
use crate::program::Program;
use crate::repair::Repair;
use crate::table::Table;
use crate::tree::Relation;
use oracle::checker::Value;
use oracle::facts::GREATEST;

/// A where for what is known, in one bundle with the refused statement; a sum that may wrap is checked before it. No access gets any further by
/// it: one beyond what is known stops the run.
pub fn declare_known(program: &Program, refusal: &Refusal) -> Option<Help> {
    let place = Place::new(program, program.text.as_ref()?, refusal.routine.unwrap_or(0))?;
    let (table, refused) = (place.printer.table, refusal.place);
    let is_plain = matches!(table.statements[refused][0], 1..=9) && table.bundle_around(refused).is_none();
    if refusal.number != 8 || !is_plain {
        return None;
    }
    let checked = may_wrap(table, refused).map(|(n, k)| vec![not_wrapping(n, k)]);
    [Some(Vec::new()), checked].into_iter().flatten().find_map(|conditions: Vec<[i32; 4]>| {
        let mut trial = Draft::of(&place);
        for &[left, relation, form, right] in &conditions {
            trial = trial.with_before(refused, [10, left, relation, form, right, 0, 0]);
        }
        let moment = trial.walk(None).after?;
        let wheres = known_bounds(&place, &trial.table, &moment)?;
        let last = vec![format!("where {};", wheres.join(" and "))];
        let check = |condition: &[i32; 4]| format!("dynamic_check({});", place.printer.condition(*condition));
        let before: Vec<String> = conditions.iter().map(check).collect();
        let (line, statement) = (place.line(refused), place.printer.statement(refused));
        let mut message = format!("in place of {line} write bundled {{ {statement}; {} }}", last[0]);
        if !before.is_empty() {
            message.push_str(&format!(", with {} before it", before.join(" ")));
        }
        Some(Help { message, repair: Some(Repair::Bundle { first: refused, count: 1, before, last }) })
    })
}

/// The condition under which n + k does not wrap.
fn not_wrapping(n: i32, k: i64) -> [i32; 4] {
    match k {
        0.. => [n, Relation::LessEqual as i32, 1, (GREATEST - k) as u32 as i32],
        _ => [n, Relation::GreaterEqual as i32, 1, -k as i32],
    }
}

/// `row : bounds(row, row + rows - 1)` for each pointer whose declared bounds are not shown; none where an end is lost.
fn known_bounds(place: &Place, table: &Table, moment: &Moment) -> Option<Vec<String>> {
    let pointers = (0..table.variables.len()).filter(|&p| table.is_pointer(p as i32));
    let unshown = pointers.filter(|&p| !unshown(table, moment, p).is_empty());
    let words = |end: Value| {
        let constant = i32::try_from(end.constant).ok()?;
        Some([i32::from(end.pointer), end.integer.map_or(-1, i32::from), constant])
    };
    let bounds = |p: usize| {
        let known = moment.known.of(p)?;
        let ([q, n, k], [r, m, j]) = (words(known.lower?)?, words(known.upper?)?);
        let counts_alike = (n, m) == (-1, -1) || known.size == i64::from(table.size(p as i32));
        let p = p as i32;
        let written =
            || format!("{} : {}", place.printer.name(p), place.printer.bounds(p, [q, n, k, r, m, j]));
        counts_alike.then(written)
    };
    unshown.map(bounds).collect()
}

/// Whether a statement gives a pointer another address.
pub fn gives_address(place: &Place, statement: usize) -> bool {
    match place.printer.table.statements[statement] {
        [4 | 5, ..] => true,
        [6 | 7, p, q, ..] => p != q,
        _ => false,
    }
}

/// Whether a help writes no check, so that no run stops that did not before.
pub fn is_unchecked(help: &Help) -> bool {
    matches!(&help.repair, Some(Repair::Bundle { before, .. }) if before.is_empty())
}
