//! The accesses of an accepted routine, one by one: which of them stop no run, and of the others what is not known before them.

use super::bounds::{Gap, Side};
use super::Place;
use crate::program::Program;
use crate::rows::InForce;
use crate::table::accessed;
use oracle::checker::{watch_with_facts, Known, Observer, Rows, Value};
use oracle::facts::{Facts, Node, ZERO};
use oracle::loop_facts::LoopFacts;
use oracle::table::decode;

/// A line for each access: `FILE:7:9: safe: x = row[i]`, `FILE:8:9: may stop: x = row[j]: j < rows is not known`. The library makes no
/// report of a set.
pub fn report(program: &Program, safe: &[u32]) -> String {
    if program.tables.len() > 1 {
        return String::new();
    }
    let place = program.text.as_ref().and_then(|text| Place::new(program, text, 0));
    let Some(place) = place else { return String::new() };
    let mut accesses = Accesses { place: &place, name: &program.name, safe, lines: String::new() };
    if let Ok(routine) = decode(&program.tables[0]) {
        if let Ok(loop_facts) = LoopFacts::read(&routine, &program.facts) {
            let _ = watch_with_facts(&routine, &loop_facts, &mut accesses);
        }
    }
    accesses.lines
}

struct Accesses<'a> {
    place: &'a Place<'a>,
    name: &'a str,
    safe: &'a [u32],
    lines: String,
}

impl Observer for Accesses<'_> {
    fn before(&mut self, statement: usize, facts: &Facts, _: &Rows, _: &Known) {
        let (place, printer) = (self.place, &self.place.printer);
        let record = &printer.table.statements[statement];
        if !matches!(record[0], 8 | 9) {
            return;
        }
        let line = match self.safe.contains(&(statement as u32)) {
            true => access(place, self.name, statement, "safe"),
            false => {
                let line = access(place, self.name, statement, "may stop");
                format!("{line}: {}", unknown(place, statement, facts).join(", "))
            }
        };
        self.lines.push_str(&format!("{line}\n"));
    }
}

/// `FILE:7:9: safe: x = row[i]`.
pub fn access(place: &Place, name: &str, statement: usize, what: &str) -> String {
    let at = place.statement(statement).map_or(String::new(), |at| format!(":{at}"));
    format!("{name}{at}: {what}: {}", place.printer.statement(statement))
}

/// What is not known before an access that may stop.
fn unknown(place: &Place, statement: usize, facts: &Facts) -> Vec<String> {
    let printer = &place.printer;
    let table = printer.table;
    let (p, i, k) = accessed(&table.statements[statement]);
    let mut unknown = Vec::new();
    if !facts.shows(ZERO, p as Node, -1) {
        unknown.push(format!("{} != NULL is not known", printer.name(p)));
    }
    for side in sides(place, statement, [p, i, k]) {
        if let Some(Gap::Short(_)) = side.gap(facts) {
            let words = match side.lacking(facts) {
                Some(condition) => printer.condition(condition),
                None => side.inequality(place),
            };
            unknown.push(format!("{words} is not known"));
        }
    }
    unknown
}

/// The lower end is at most the address, and the cell behind the address at most the upper end.
fn sides(place: &Place, statement: usize, [p, i, k]: [i32; 3]) -> [Side; 2] {
    let table = place.printer.table;
    let [q, n, j, r, m, l] = InForce::before(table, statement).bounds(table, p as usize);
    let value = |[pointer, integer, constant]: [i32; 3], more: i64| Value {
        pointer: pointer as u8,
        integer: u8::try_from(integer).ok(),
        constant: i64::from(constant) + more,
    };
    let size = i64::from(table.size(p));
    let side = |upper: bool, end: [i32; 3]| Side {
        upper,
        declared: value([p, i, k], i64::from(upper)),
        size,
        known: Some(value(end, 0)),
        known_size: size,
    };
    [side(false, [q, n, j]), side(true, [r, m, l])]
}
