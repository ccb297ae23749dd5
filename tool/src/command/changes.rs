//! What a run or a step of it changed, in words: values, cells, bounds in force.

use crate::explain::stops::cells_of;
use crate::library::{Lent, Outcome};
use crate::memory::Memory;
use crate::printer::Printer;
use crate::rows::InForce;
use oracle::frame::Frame;

/// So many neighbouring cells are told as one.
const LEAST_RANGE: usize = 4;
/// More numbers of a range are not told.
const MOST_NUMBERS: usize = 8;
/// More lines of cells are not told.
const MOST_LINES: usize = 40;

/// A point of a run: the values and cells then, where the pointers belong if that is known, and the statement due; behind the last one
/// nothing is.
#[derive(Clone, Copy)]
pub struct Point<'a> {
    pub values: &'a [u32],
    pub cells: &'a [u32],
    pub origins: Option<&'a [u32]>,
    pub due: usize,
}

impl<'a> Point<'a> {
    pub fn start(lent: &'a Lent) -> Point<'a> {
        Point { values: &lent.values, cells: &lent.cells, origins: Some(&lent.origins), due: 0 }
    }

    /// What a routine at work has, the cells left aside.
    pub fn of(frame: &'a Frame) -> Point<'a> {
        Point { values: &frame.values, cells: &[], origins: Some(&frame.origins), due: 0 }
    }

    fn value(&self, memory: &Memory, variable: usize) -> String {
        let origin = self.origins.map(|origins| origins[variable]);
        memory.value(variable, self.values[variable], origin)
    }
}

/// The statement due where a run ended.
pub fn due(printer: &Printer, outcome: &Outcome) -> usize {
    match *outcome {
        Outcome::Done { .. } => printer.table.statements.len(),
        Outcome::Spent { statement, .. } | Outcome::Stopped { statement, .. } => statement as usize,
        Outcome::Refused(_) => 0,
    }
}

/// `row: first + 3 -> first + 4`, `first[3] (cell 4): 0 -> 77` and `bounds of row: count(0) -> count(rows) (cells 5 to 8)`.
pub fn changes(memory: &Memory, before: Point, after: Point) -> Vec<String> {
    let mut changes = values(memory, before, after);
    changes.extend(cells(memory, before.cells, after.cells));
    changes.extend(bounds(memory, before, after));
    changes
}

pub fn values(memory: &Memory, before: Point, after: Point) -> Vec<String> {
    let variables = 0..before.values.len();
    let changed = variables.filter(|&variable| {
        let origins = [before, after].map(|point| point.origins.map(|origins| origins[variable]));
        let moved = origins[0].is_some() && origins[1].is_some() && origins[0] != origins[1];
        before.values[variable] != after.values[variable] || moved
    });
    let line = |variable: usize| {
        let [old, new] = [before, after].map(|point| point.value(memory, variable));
        format!("{}: {old} -> {new}", memory.printer.name(variable as i32))
    };
    changed.map(line).collect()
}

/// One cell that changed.
pub fn cell(memory: &Memory, cell: usize, [old, new]: [u32; 2]) -> String {
    format!("{}: {} -> {}", memory.cell(cell), memory.number(cell, old), memory.number(cell, new))
}

/// The changed cells: names as text, neighbours of one object as one range.
fn cells(memory: &Memory, old: &[u32], new: &[u32]) -> Vec<String> {
    let mut lines = Vec::new();
    let mut cells = (0..old.len().min(new.len())).filter(|&cell| old[cell] != new[cell]).peekable();
    let (mut told, mut more) = (None, 0);
    while let Some(first) = cells.next() {
        let object = memory.object_at(first as i64).map(|(object, _)| object);
        if let Some(object) = object.filter(|object| memory.is_terminated(*object) && told != Some(*object)) {
            if let [Some(before), Some(after)] = [old, new].map(|cells| memory.text(object, cells)) {
                if before != after {
                    lines.push(format!("{}: {before} -> {after}", memory.name(object)));
                    told = Some(object);
                }
            }
        }
        if object.is_some() && told == object {
            continue;
        }
        let mut last = first;
        let same = |cell: usize| memory.object_at(cell as i64).map(|(object, _)| object) == object;
        while cells.next_if(|&next| next == last + 1 && same(next)).is_some() {
            last += 1;
        }
        if last - first + 1 >= LEAST_RANGE {
            lines.push(range(memory, first, last, [old, new]));
        } else {
            lines.extend((first..=last).map(|number| cell(memory, number, [old[number], new[number]])));
        }
        if lines.len() > MOST_LINES {
            more += last - first + 1;
            lines.truncate(MOST_LINES);
        }
    }
    if more > 0 {
        lines.push(format!("and {more} cells more"));
    }
    lines
}

/// `first[0..3] (cells 1 to 4): 0 0 0 0 -> 5 6 7 8`.
fn range(memory: &Memory, first: usize, last: usize, numbers: [&[u32]; 2]) -> String {
    let count = last - first + 1;
    let [old, new] = numbers.map(|cells| {
        let shown: Vec<String> = cells[first..=last].iter().take(MOST_NUMBERS).map(u32::to_string).collect();
        let more = if count > MOST_NUMBERS { " .." } else { "" };
        format!("{}{more}", shown.join(" "))
    });
    let place = match memory.object_at(first as i64) {
        Some((object, index)) => {
            let end = memory.element(object, index + count as i64 - 1);
            let end = end.trim_start_matches(memory.name(object));
            format!("{} to {end} ({count} cells, {first} to {last})", memory.element(object, index))
        }
        None => format!("cells {first} to {last} ({count} cells)"),
    };
    format!("{place}: {old} -> {new}")
}

/// The pointers that have other rows in force, with the cells that their bounds are now; a null pointer has any bounds.
pub fn bounds(memory: &Memory, before: Point, after: Point) -> Vec<String> {
    let [old, new] = [before, after].map(|point| InForce::before(memory.printer.table, point.due));
    bounds_between(memory, [&old, &new], after.values)
}

/// The same for rows that are known, by the values then.
pub fn bounds_between(memory: &Memory, [old, new]: [&InForce; 2], values: &[u32]) -> Vec<String> {
    let printer = &memory.printer;
    let table = printer.table;
    let changed = (0..table.variables.len()).filter(|&p| old.row(table, p) != new.row(table, p));
    let line = |p: usize| {
        let [was, is] = [old, new].map(|rows| printer.bounds(p as i32, rows.bounds(table, p)));
        let cells = match values[p] {
            0 => String::new(),
            _ => format!(" ({})", cells_of(printer, p as i32, new, values)),
        };
        format!("bounds of {}: {was} -> {is}{cells}", printer.name(p as i32))
    };
    changed.map(line).collect()
}
