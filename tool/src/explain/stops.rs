//! Why a run stopped, by the values it stopped with.

use super::values::end;
use crate::library::Check;
use crate::printer::Printer;
use crate::rows::InForce;
use crate::table::accessed;

/// What the failing check of a statement says.
pub fn sentence(printer: &Printer, statement: usize, check: Check, values: &[u32]) -> String {
    let record = printer.table.statements[statement];
    let value = |variable: i32| values[variable as usize];
    match check {
        Check::ConditionFalse => condition_false(printer, statement, values),
        Check::NullAccess => format!("`{}` is NULL", printer.name(accessed(&record).0)),
        Check::OutOfBounds => out_of_bounds(printer, statement, values),
        Check::NullArithmetic => format!("`{}` is NULL: nothing can be added to it", printer.name(record[2])),
        Check::AddressRange => {
            let size = i64::from(printer.table.size(record[2]));
            let (moved, by) = match record[0] {
                6 => (printer.moved(record[2], i64::from(record[3])), i64::from(record[3])),
                _ => {
                    let moved = format!("{} + {}", printer.name(record[2]), printer.name(record[3]));
                    (moved, size * i64::from(value(record[3])))
                }
            };
            let address = i64::from(value(record[2])) + by;
            format!("{moved} is {address}, which is no address (1 to 4294967295)")
        }
        Check::Terminator => {
            let (p, i, k) = accessed(&record);
            let address = end([p, i, k], printer.table.size(p), values).value;
            let (name, stored) = (printer.name(p), record[4]);
            format!(
                "only 0 may be stored at the upper end of `{name}` (cell {address}); `{}` is {}",
                printer.name(stored),
                value(stored)
            )
        }
        Check::Other(number) => format!("check {number} fails"),
    }
}

fn condition_false(printer: &Printer, statement: usize, values: &[u32]) -> String {
    let [_, left, _, form, right, ..] = printer.table.statements[statement];
    let is = |variable: i32| format!("{} is {}", printer.name(variable), values[variable as usize]);
    let mut sentence = format!("{} is false: {}", printer.statement(statement), is(left));
    if form == 0 && right != left {
        sentence.push_str(&format!(", {}", is(right)));
    }
    sentence
}

fn out_of_bounds(printer: &Printer, statement: usize, values: &[u32]) -> String {
    let table = printer.table;
    let (p, i, k) = accessed(&table.statements[statement]);
    let address = end([p, i, k], table.size(p), values).value;
    let rows = InForce::before(table, statement);
    let [low, high] = ends(printer, p, &rows, values);
    let included = if table.is_terminated(p) { "included" } else { "not included" };
    let (cell, name) = (printer.cell(p, i, k), printer.name(p));
    let now = match rows.statement(p as usize) {
        Some(_) => format!(", now {},", printer.bounds(p, rows.bounds(table, p as usize))),
        None => String::new(),
    };
    format!(
        "`{cell}` is cell {address}; the bounds of `{name}`{now} are cells {low} up to {high}, {high} {included}"
    )
}

/// The values of the ends in force.
fn ends(printer: &Printer, p: i32, rows: &InForce, values: &[u32]) -> [i64; 2] {
    let [q, n, k, r, m, j] = rows.bounds(printer.table, p as usize);
    let size = printer.table.size(p);
    [[q, n, k], [r, m, j]].map(|words| end(words, size, values).value)
}

/// `cells 5 to 8`: what the bounds in force let an access reach; an nt_array_ptr the cell at the upper end too.
pub fn cells_of(printer: &Printer, p: i32, rows: &InForce, values: &[u32]) -> String {
    let [low, high] = ends(printer, p, rows, values);
    let last = if printer.table.is_terminated(p) { high } else { high - 1 };
    match last - low {
        0 => format!("cell {low}"),
        1.. => format!("cells {low} to {last}"),
        _ => "no cell".to_string(),
    }
}
