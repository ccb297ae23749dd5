//! A drawing of the blocks that a stopping statement is about: cells in rows, addresses, pointers with their bounds, neighbours that touch.

use super::stops::cells_of;
use super::values::end;
use crate::memory::Memory;
use crate::rows::InForce;
use crate::table::accessed;
use std::collections::BTreeMap;

/// A line of a drawing has no more columns, where names allow it.
const MOST_COLUMNS: usize = 80;

/// Where a run stands: the statement due, the values, where pointers belong, the cells.
#[derive(Clone, Copy)]
pub struct Scene<'a> {
    pub memory: Memory<'a>,
    pub statement: usize,
    pub values: &'a [u32],
    pub origins: &'a [u32],
    pub cells: &'a [u32],
}

/// A place in a block, and what is said of it.
struct Mark {
    cell: i64,
    said: String,
}

/// The lines of the drawing; none where no pointer of the statement belongs to a block.
pub fn drawing(scene: &Scene) -> Vec<String> {
    let mut blocks: BTreeMap<usize, (usize, Vec<Mark>)> = BTreeMap::new();
    for p in pointers(scene) {
        let Some(object) = (scene.origins[p] as usize).checked_sub(1) else { continue };
        let size = scene.memory.printer.table.size(p as i32) as usize;
        let (widest, marks) = blocks.entry(object).or_default();
        *widest = size.max(*widest);
        marks.extend(marks_of(scene, p));
    }
    blocks
        .into_iter()
        .flat_map(|(object, (size, marks))| Block::new(scene, object, size, &marks).lines(&marks))
        .collect()
}

/// The pointers that a statement names; of a check on integers those whose bounds name them.
fn pointers(scene: &Scene) -> Vec<usize> {
    let table = scene.memory.printer.table;
    let record = &table.statements[scene.statement];
    let named: Vec<i32> = match *record {
        [6 | 7, _, q, ..] => vec![q],
        [8 | 9, ..] => vec![accessed(record).0],
        [10, left, _, 0, right, ..] => vec![left, right],
        [10, left, ..] => vec![left],
        _ => Vec::new(),
    };
    let all = 0..table.variables.len();
    let of_statement: Vec<usize> =
        all.clone().filter(|&v| table.is_pointer(v as i32) && named.contains(&(v as i32))).collect();
    if !of_statement.is_empty() {
        return of_statement;
    }
    let rows = InForce::before(table, scene.statement);
    let bounded = |&p: &usize| {
        let [_, n, _, _, m, _] = rows.bounds(table, p);
        table.is_pointer(p as i32) && (named.contains(&n) || named.contains(&m))
    };
    all.filter(bounded).collect()
}

/// A pointer with its bounds, and the cell that is accessed through it.
fn marks_of(scene: &Scene, p: usize) -> Vec<Mark> {
    let (memory, printer) = (&scene.memory, &scene.memory.printer);
    let value = scene.values[p];
    let rows = InForce::before(printer.table, scene.statement);
    let bounds = cells_of(printer, p as i32, &rows, scene.values);
    let place = memory.value(p, value, Some(scene.origins[p]));
    let said = format!("{} = {place}, bounds: {bounds}", printer.name(p as i32));
    let mut marks = vec![Mark { cell: i64::from(value), said }];
    let record = &printer.table.statements[scene.statement];
    if matches!(record[0], 8 | 9) {
        let (p, i, k) = accessed(record);
        let cell = end([p, i, k], printer.table.size(p), scene.values).value;
        if cell != i64::from(value) {
            marks.push(Mark { cell, said: format!("{} is cell {cell}", printer.cell(p, i, k)) });
        }
    }
    marks
}

/// A number in a cell; in a name its letter.
fn shown(scene: &Scene, object: usize, cell: u32) -> String {
    let letter = u8::try_from(cell).ok().filter(u8::is_ascii_graphic);
    match letter.filter(|_| scene.memory.is_terminated(object)) {
        Some(letter) => format!("'{}'", char::from(letter)),
        None => cell.to_string(),
    }
}

/// The name of a block, and of the one that touches it from before: `keelboats  dinghies #`.
fn label(scene: &Scene, object: usize, low: i64) -> String {
    let memory = &scene.memory;
    let before = memory.name_at(low - 1).map(|before| format!("{before} #"));
    format!("{}  {}", memory.name(object), before.unwrap_or_default())
}

/// How a block is laid out on lines.
struct Block<'a> {
    scene: &'a Scene<'a>,
    object: usize,
    low: i64,
    length: i64,
    /// Cells in a row.
    size: i64,
    /// Columns of a number, and before the block.
    width: usize,
    margin: usize,
    /// The rows that are drawn.
    rows: std::ops::Range<i64>,
}

impl<'a> Block<'a> {
    fn new(scene: &'a Scene<'a>, object: usize, size: usize, marks: &[Mark]) -> Block<'a> {
        let (low, length) = scene.memory.object(object).unwrap_or((0, 0));
        let cells = scene.cells.get(low as usize..(low + length) as usize).unwrap_or_default();
        let width = cells.iter().map(|cell| shown(scene, object, *cell).len()).max().unwrap_or(1);
        let margin = label(scene, object, low).len().max("cells  ".len());
        let mut block = Block { scene, object, low, length, size: size as i64, width, margin, rows: 0..0 };
        let all = (length + block.size - 1) / block.size;
        let room = (MOST_COLUMNS.saturating_sub(margin + 4) / block.row_width()).max(1) as i64;
        // Where not all rows have room, those around the first mark do.
        let first = marks.first().map_or(0, |mark| (mark.cell - low) / block.size);
        let start = if all <= room { 0 } else { (first - room / 2).clamp(0, all - room) };
        block.rows = start..(start + room).min(all);
        block
    }

    fn row_width(&self) -> usize {
        self.size as usize * (self.width + 1) + 2
    }

    /// The column of a cell's last digit; of a place outside of what is drawn the border.
    fn column(&self, cell: i64) -> usize {
        let index = cell - self.low;
        let (row, inside) = (index.div_euclid(self.size), index.rem_euclid(self.size) as usize);
        if row < self.rows.start || index < 0 {
            return self.margin;
        }
        if row >= self.rows.end || index >= self.length {
            return self.margin + (self.rows.end - self.rows.start) as usize * self.row_width();
        }
        self.margin + (row - self.rows.start) as usize * self.row_width() + (inside + 1) * (self.width + 1)
    }

    fn lines(&self, marks: &[Mark]) -> Vec<String> {
        let mut lines = vec![self.cells_line(), self.addresses_line()];
        for Mark { cell, said } in marks {
            let column = self.column(*cell);
            let behind = format!("{:column$}^ {said}", "");
            let before = format!("{said} ^");
            lines.push(match behind.len() > MOST_COLUMNS && before.len() <= column + 1 {
                true => format!("{before:>width$}", width = column + 1),
                false => behind,
            });
        }
        lines
    }

    /// `dinghies   | 11 700 | 12 702 |# keelboats`.
    fn cells_line(&self) -> String {
        let memory = &self.scene.memory;
        let mut line = format!("{:<width$}", label(self.scene, self.object, self.low), width = self.margin);
        for row in self.rows.clone() {
            line.push('|');
            for index in row * self.size..(row + 1) * self.size {
                let cell = (index < self.length).then(|| self.scene.cells.get((self.low + index) as usize));
                let shown =
                    cell.flatten().map_or_else(String::new, |cell| shown(self.scene, self.object, *cell));
                line.push_str(&format!(" {shown:>width$}", width = self.width));
            }
            line.push(' ');
        }
        let is_whole = self.rows.end * self.size >= self.length;
        line.push_str(if is_whole { "|" } else { "| .." });
        let next = memory.name_at(self.low + self.length).filter(|_| is_whole);
        line + &next.map_or_else(String::new, |next| format!("# {next}"))
    }

    /// The address of the first cell of each row, below it.
    fn addresses_line(&self) -> String {
        let mut line = format!("{:<width$}", "cells", width = self.margin);
        for row in self.rows.clone() {
            let address = self.low + row * self.size;
            let column = self.column(address) + 1;
            let shown = address.to_string();
            if line.len() + shown.len() < column + 1 {
                line = format!("{line:<width$}{shown}", width = column - shown.len());
            }
        }
        line
    }
}
