//! Refusal 13: rows of different numbers are in force behind the two sides of an if, or at the head and at the end of a while's body.

use super::advice::{self, Differing};
use super::trial::first_that_helps;
use super::{ways, Explanation, Help, Note, Place};
use crate::library::Refusal;
use crate::program::Program;
use crate::rows::InForce;

pub fn differ(place: &Place, refusal: &Refusal) -> Explanation {
    let (table, s) = (place.printer.table, refusal.place);
    let sides = sides(place, s);
    let differing = differing(place, &sides);
    let [first, others @ ..] = &differing[..] else { return Explanation::default() };
    let shown = |one: &Differing| {
        let [there, here] = bounds(place, &sides, one.pointer);
        (place.printer.name(one.pointer as i32), format!("{there} and {here}"))
    };
    let (name, both) = shown(first);
    let sentence = format!("`{name}` has other bounds {}: {both}", between(place, s));
    let mut notes = Vec::new();
    if sides[0].bounds(table, first.pointer) == sides[1].bounds(table, first.pointer) {
        let numbers =
            first.rows.map(|row| if row == -1 { "-1, its own".to_string() } else { row.to_string() });
        notes.push(format!("they are two rows ({}), and rows count by number", numbers.join(" and ")));
    }
    notes.extend(others.iter().map(shown).map(|(name, both)| format!("so has `{name}`: {both}")));
    Explanation {
        notes: notes.into_iter().map(Note::new).collect(),
        ..Explanation::new(place.statement(s), sentence)
    }
}

/// What would give both ways the same rows.
pub fn help(program: &Program, place: &Place, refusal: &Refusal) -> Option<Help> {
    let sides = sides(place, refusal.place);
    let differing = differing(place, &sides);
    advice::same_rows(place, refusal.place, &differing).or_else(|| {
        let both = ways::on_both_sides(place, refusal.place, &differing);
        first_that_helps(program, refusal, both.into_iter())
    })
}

/// The pointers whose rows are not the same on both sides.
fn differing(place: &Place, sides: &[InForce; 2]) -> Vec<Differing> {
    let table = place.printer.table;
    let rows =
        |pointer| Differing { pointer, rows: [0, 1].map(|side: usize| sides[side].row(table, pointer)) };
    (0..table.variables.len()).map(rows).filter(|one| one.rows[0] != one.rows[1]).collect()
}

/// What is in force behind the then and the else block, or at the end of the body and at the head.
fn sides(place: &Place, s: usize) -> [InForce; 2] {
    let table = place.printer.table;
    let (head, end) = (InForce::before(table, s), s + table.extent(s));
    let record = &table.statements[s];
    if record[0] == 12 {
        return [head.clone().after(table, s + 1, end), head];
    }
    let middle = s + 1 + record[5] as usize;
    [head.clone().after(table, s + 1, middle), head.after(table, middle, end)]
}

fn between(place: &Place, s: usize) -> &'static str {
    match place.printer.table.statements[s] {
        [12, ..] => "at the end of the body than at the head",
        [.., 0] => "after the then block than without it",
        _ => "after the then block than after the else block",
    }
}

/// `count(1) (line 6)` or `its own, count(n)`, for each side.
fn bounds(place: &Place, sides: &[InForce; 2], p: usize) -> [String; 2] {
    [0, 1].map(|side: usize| {
        let shown = place.in_force(&sides[side], p);
        match sides[side].statement(p) {
            Some(s) => format!("{shown} ({})", place.line(s)),
            None => format!("its own, {shown}"),
        }
    })
}
