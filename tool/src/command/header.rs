//! `asm --c-header`: a routine or a set for a C program, its table with the names of what is in it.

use crate::program::{Program, Text};
use crate::table::Table;

/// The header of a routine: its table, its list, numbers for its variables and objects, the objects' lengths, the lines of its statements. Of a
/// set all tables one behind the other with their lengths, and numbers for its routines and for the last one's variables.
pub fn header(program: &Program, text: &Text) -> Result<String, String> {
    let (Some(routine), Some(first)) = (text.names.routines.last(), text.parts.first()) else {
        return Err(format!("{}: error: a header holds a routine\n", program.name));
    };
    let name = &routine.name;
    let guard = format!("{}_TABLE_H", name.to_uppercase());
    let mut lines = format!("/* {name}: made by mizzengrape asm --c-header. */\n#ifndef {guard}\n#define {guard}\n\n#include <stdint.h>\n\n");
    match &program.tables[..] {
        [words] => {
            lines.push_str(&array("int32_t", &format!("{name}_table"), words.iter()));
            lines.push_str(&array("int32_t", &format!("{name}_facts"), program.facts.iter()));
        }
        tables => {
            lines.push_str(&array("int32_t", &format!("{name}_tables"), tables.iter().flatten()));
            let words: Vec<usize> = tables.iter().map(Vec::len).collect();
            lines.push_str(&array("uint32_t", &format!("{name}_table_lengths"), words.iter()));
            let routines: Vec<String> =
                text.names.routines.iter().map(|routine| routine.name.clone()).collect();
            lines.push_str(&numbers(name, "routine", &routines));
        }
    }
    lines.push_str(&numbers(name, "variable", &routine.variables));
    lines.push_str(&numbers(name, "object", &text.names.objects));
    lines.push_str("/* The cells of each object: the second word of its pair in the directory. */\n");
    lines.push_str(&array("uint32_t", &format!("{name}_lengths"), lengths(first).iter()));
    for (routine, map) in text.names.routines.iter().zip(&text.map.routines) {
        lines.push_str("/* The line of each statement in the text. */\n");
        let places = map.statements.iter().map(|at| at.line);
        lines.push_str(&array("uint32_t", &format!("{}_lines", routine.name), places));
    }
    lines.push_str(&format!("#endif /* {guard} */\n"));
    Ok(lines)
}

fn lengths(table: &Table) -> Vec<u32> {
    table.objects.iter().map(|length| length.unsigned_abs()).collect()
}

/// An array with its length; C has no empty ones, so that only the length is there then.
fn array<T: ToString>(kind: &str, name: &str, values: impl Iterator<Item = T>) -> String {
    let values: Vec<String> = values.map(|value| value.to_string()).collect();
    let length = format!("enum {{ {name}_length = {} }};\n", values.len());
    if values.is_empty() {
        return format!("{length}\n");
    }
    let rows: Vec<String> = values.chunks(12).map(|row| format!("    {},\n", row.join(", "))).collect();
    format!("static const {kind} {name}[] = {{\n{}}};\n{length}\n", rows.concat())
}

/// `enum late_variable { late_variable_row, late_variable_rows };`.
fn numbers(routine: &str, what: &str, names: &[String]) -> String {
    if names.is_empty() {
        return String::new();
    }
    let members: Vec<String> = names.iter().map(|name| format!("    {routine}_{what}_{name},\n")).collect();
    format!("enum {routine}_{what} {{\n{}}};\n\n", members.concat())
}
