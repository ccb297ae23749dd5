//! What is known before a statement: facts, declared and known bounds.

use super::facts::known;
use super::walk::{walk, Moment};
use super::Place;
use crate::program::Program;

/// The state before a statement of a routine, in lines; or why there is none.
pub fn state(program: &Program, (routine, statement): (usize, usize), short: bool) -> Result<String, String> {
    let place = program.text.as_ref().and_then(|text| Place::new(program, text, routine));
    let (Some(place), Some(source)) = (place, program.source()) else {
        return Err("this table has no text".to_string());
    };
    let seen = walk(&place.context, &program.tables[routine], &program.facts, Some(statement));
    let (Some(at), Some(moment)) = (place.statement(statement), seen.asked) else {
        return Err(match seen.answer {
            Err(refusal) => format!("{refusal}: the check ended before this statement"),
            Ok(()) => "the check did not come to this statement".to_string(),
        });
    };
    let printer = &place.printer;
    let mut lines = source.show(at, &format!("before {}", printer.statement(statement)), short);
    let variables: Vec<i32> = (0..printer.table.variables.len() as i32).collect();
    for p in variables.iter().copied().filter(|&p| printer.table.is_pointer(p)) {
        lines.push_str(&bounds(&place, &moment, p));
    }
    lines.push_str(&format!("known: {}\n", known(printer, &moment.facts, &variables)));
    for fact in printer.facts_of(statement) {
        lines.push_str(&format!("loop fact: {fact}\n"));
    }
    Ok(lines)
}

/// The bounds of a pointer: as declared, and as known where that is something else.
fn bounds(place: &Place, moment: &Moment, p: i32) -> String {
    let printer = &place.printer;
    let (pointer, rows) = (p as usize, moment.rows(printer.table));
    let mut lines = format!("declared: {} : {}", printer.name(p), place.in_force(&rows, pointer));
    if let Some(s) = rows.statement(pointer) {
        lines.push_str(&format!(" (row {}, {})", rows.row(printer.table, pointer), place.line(s)));
    }
    lines.push('\n');
    let Some(known) = moment.known.of(pointer) else { return lines };
    let ends = [("lower", known.lower), ("upper", known.upper)];
    for ((which, end), by) in ends.into_iter().zip(moment.changed[pointer]) {
        if let Some(s) = by {
            let end = end.map_or_else(|| "lost".to_string(), |end| place.end(end, known.size));
            lines.push_str(&format!("known {which} end: {end} ({})\n", place.line_and_text(s)));
        }
    }
    lines
}
