//! Whether a run leaves its bounds: the plain machine goes step by step, and beside it each pointer has the cells that it was lent.

use mizzengrape_tool::table::{accessed, Table, ROW_WORDS};
use oracle::answer::{Check, RunAnswer, RunInput};
use oracle::machine::Machine;
use oracle::table::decode;

/// What became of the bounds in a run.
#[derive(Clone, Copy, Debug, PartialEq, Eq)]
pub enum Bounds {
    /// Somewhere outside of bundles a pointer's bounds are wider than those that it had, or an access is outside of these.
    Left,
    /// They are left nowhere, and a pointer was null, whose bounds may be any.
    KeptWithNull,
    Kept,
}

/// The cells from one address up to another.
type Cells = (i64, i64);
const ALL: Cells = (i64::MIN, i64::MAX);

pub fn bounds_in_run(words: &[i32], input: &RunInput) -> Bounds {
    let (routine, table) = (decode(words).expect("a routine"), Table::split(words).expect("a table"));
    let RunInput { directory, mut cells, mut values, origins, allowance } = input.clone();
    let mut lent = Lent::at_entry(&table, &values);
    let mut machine = Machine::new(&routine, &directory, &mut values, &origins);
    let mut has_null = false;
    while let Some(s) = machine.due() {
        if machine.steps() == u64::from(allowance) || !lent.allows(s, machine.values()) {
            break;
        }
        let limit = machine.steps() + 1;
        if let RunAnswer::Stopped { .. } | RunAnswer::Stuck { .. } = machine.go(&mut cells, limit) {
            break;
        }
        lent.step(s, &directory);
        if !is_in_bundle(&table, s, machine.due()) && !lent.settle(machine.values(), &mut has_null) {
            return Bounds::Left;
        }
    }
    let is_outside = machine.due().is_some_and(|s| !lent.allows(s, machine.values()));
    match (is_outside, has_null) {
        (true, _) => Bounds::Left,
        (false, true) => Bounds::KeptWithNull,
        (false, false) => Bounds::Kept,
    }
}

/// Whether a bundle goes on behind a statement.
fn is_in_bundle(table: &Table, s: usize, due: Option<usize>) -> bool {
    let head = if table.statements[s][0] == 13 { Some(s) } else { table.bundle_around(s) };
    head.is_some() && due.is_some_and(|due| table.bundle_around(due) == head)
}

/// The bounds in force, and the cells that each pointer may reach.
struct Lent<'a> {
    table: &'a Table,
    rows: Vec<[i32; ROW_WORDS]>,
    cells: Vec<Cells>,
}

impl Lent<'_> {
    fn at_entry<'a>(table: &'a Table, values: &[u32]) -> Lent<'a> {
        let rows: Vec<[i32; ROW_WORDS]> = (0..table.variables.len()).map(|p| table.own_bounds(p)).collect();
        let mut lent = Lent { table, cells: vec![ALL; rows.len()], rows };
        for p in lent.pointers().filter(|&p| values[p] != 0) {
            lent.cells[p] = lent.ends(p, values);
        }
        lent
    }

    fn pointers(&self) -> impl Iterator<Item = usize> {
        let is_pointer: Vec<bool> = self.table.variables.iter().map(|record| record[0] != 0).collect();
        (0..is_pointer.len()).filter(move |&p| is_pointer[p])
    }

    fn ends(&self, p: usize, values: &[u32]) -> Cells {
        let value = |v: i32| usize::try_from(v).map_or(0, |v| i64::from(values[v]));
        let end = |q, n, k| value(q) + i64::from(self.table.size(p as i32)) * value(n) + i64::from(k);
        let [q, n, k, r, m, j] = self.rows[p];
        (end(q, n, k), end(r, m, j))
    }

    /// Whether an access that is due, if one is, is at a cell that its pointer may reach; null is at none and stops by itself.
    fn allows(&self, s: usize, values: &[u32]) -> bool {
        let record = &self.table.statements[s];
        if !matches!(record[0], 8 | 9) {
            return true;
        }
        let (p, i, k) = accessed(record);
        let index = usize::try_from(i).map_or(0, |i| i64::from(values[i]));
        let address = i64::from(values[p as usize]) + i64::from(self.table.size(p)) * index + i64::from(k);
        let (low, high) = self.cells[p as usize];
        low <= address && address < high
    }

    /// What a statement does to pointers and bounds.
    fn step(&mut self, s: usize, directory: &[u32]) {
        match self.table.statements[s] {
            [4, p, ..] => self.cells[p as usize] = ALL,
            [5, p, o, ..] => {
                let [from, length] = [0, 1].map(|word| i64::from(directory[2 * o as usize + word]));
                self.cells[p as usize] = (from, from + length);
            }
            [6 | 7, p, q, ..] => self.cells[p as usize] = self.cells[q as usize],
            [14, p, row, ..] => self.rows[p as usize] = self.table.row(row as usize).expect("a row"),
            _ => {}
        }
    }

    /// Behind a statement or a bundle a pointer may reach what its bounds say; none where that is more than before.
    fn settle(&mut self, values: &[u32], has_null: &mut bool) -> bool {
        for p in self.pointers() {
            let ((low, high), (from, to)) = (self.cells[p], self.ends(p, values));
            if values[p] == 0 {
                *has_null = true;
            } else if from < low || to > high {
                return false;
            } else {
                self.cells[p] = (from, to);
            }
        }
        true
    }
}

/// A table without the checks of integers at which a run stops.
pub fn without_checks(words: &[i32], input: &RunInput) -> Vec<i32> {
    let mut table = Table::split(words).expect("a table");
    loop {
        let routine = decode(&table.words()).expect("a routine");
        let RunInput { directory, mut cells, mut values, origins, allowance } = input.clone();
        let mut machine = Machine::new(&routine, &directory, &mut values, &origins);
        let answer = machine.go(&mut cells, u64::from(allowance));
        let RunAnswer::Stopped { statement, check: Check::Dynamic, .. } = answer else {
            return table.words();
        };
        // An integer is at least 0.
        let [_, left, ..] = table.statements[statement as usize];
        if table.is_pointer(left) {
            return table.words();
        }
        table.statements[statement as usize] = [10, left, 1, 1, 0, 0, 0];
    }
}
