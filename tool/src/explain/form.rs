//! Causes 1 to 6: what is wrong with a table's form.

use super::{Explanation, Note};
use crate::diagnostics::Pos;
use crate::form::{
    directory_reason, max_words, Form, MAX_OBJECTS, MAX_ROUTINES, MAX_ROWS, MAX_STATEMENTS, MAX_VARIABLES,
};
use crate::library::Refusal;
use crate::map::{Map, RoutineMap};
use crate::names::Names;
use crate::program::Program;
use crate::table::Table;

pub fn explain(program: &Program, refusal: &Refusal) -> Explanation {
    let routine = refusal.routine.unwrap_or(0);
    let map = program.text.as_ref().map(|text| &text.map);
    let at = map.and_then(|map| position(map, routine, refusal));
    let words = program.tables.get(routine).map_or(&[][..], |words| words);
    if refusal.number == 1 {
        let sentence = match program.ragged {
            Some(bytes) => format!("the file's {bytes} bytes are no whole words"),
            None => too_long(words, !program.of_words),
        };
        return Explanation::new(at, sentence);
    }
    let parts: Result<Vec<Table>, _> = program.tables.iter().map(|words| Table::split(words)).collect();
    let parts = match parts {
        Ok(parts) => parts,
        Err(fault) => {
            let directory = &words[..words.len().min(8)];
            let note = Note::new(format!("the table begins with the words {}", listed(directory)));
            return Explanation { notes: vec![note], ..Explanation::new(at, directory_reason(&fault)) };
        }
    };
    let canonical = Names::canonical(&parts);
    let names = program.text.as_ref().map_or(&canonical, |text| &text.names);
    let map = map.and_then(|map| map.routines.get(routine));
    let form = Form { map, ..Form::new(&parts, names, routine) };
    let (sentence, record) = reason(&form, refusal);
    let of_words = program.of_words && !record.is_empty();
    let note = || Note::new(format!("the words of the record are {}", listed(&record)));
    Explanation { notes: of_words.then(note).into_iter().collect(), ..Explanation::new(at, sentence) }
}

/// Refusal 15 of a set, at the ninth routine.
pub fn too_many_routines(program: &Program) -> Explanation {
    let ninth = program.text.as_ref().and_then(|text| text.map.routines.get(MAX_ROUTINES));
    let sentence = format!("the set has {} routines; 1 to {MAX_ROUTINES} are allowed", program.tables.len());
    Explanation::new(ninth.map(|routine| routine.name), sentence)
}

/// A table of a text is too long by its statements.
fn too_long(words: &[i32], of_text: bool) -> String {
    let statements = Table::split(words).map_or(0, |table| table.statements.len());
    if of_text && statements > MAX_STATEMENTS {
        return format!("the routine has {statements} statements; it may have at most 1,024");
    }
    format!("the table has {} words; it may have 6 to {}", words.len(), max_words(words))
}

fn listed(words: &[i32]) -> String {
    let words: Vec<String> = words.iter().map(i32::to_string).collect();
    words.join(" ")
}

/// The reason, and the words that it is about.
fn reason(form: &Form, refusal: &Refusal) -> (String, Vec<i32>) {
    let (table, place) = (form.table, refusal.place);
    let (reason, record) = match refusal.number {
        2 => (form.counts().err(), Vec::new()),
        3 => {
            let word = table.objects.get(place);
            (word.and_then(|_| form.object(place).err()), word.into_iter().copied().collect())
        }
        4 if place < table.variables.len() => (form.variable(place).err(), table.variables[place].to_vec()),
        4 => {
            let row = place - table.variables.len();
            (form.row(row).err(), table.row(row).map_or(Vec::new(), |record| record.to_vec()))
        }
        _ => {
            let record = table.statements.get(place);
            let reason = match refusal.number {
                5 => record.and_then(|_| form.statement(place).err()),
                _ => form.blocks().err().map(|(_, reason)| reason),
            };
            (reason, record.map_or(Vec::new(), |record| record.to_vec()))
        }
    };
    // Calls read, but belong to a change request that this library does not have.
    (reason.unwrap_or_else(|| "this library has no calls".to_string()), record)
}

/// Where a refusal of the form stands in the text.
fn position(map: &Map, routine: usize, refusal: &Refusal) -> Option<Pos> {
    let place = refusal.place;
    let RoutineMap { name, variables, statements, rows, .. } = map.routines.get(routine)?;
    let found = match refusal.number {
        1 => statements.get(MAX_STATEMENTS),
        2 => {
            let counted = [(&map.objects, MAX_OBJECTS), (variables, MAX_VARIABLES)];
            let counted = counted.into_iter().chain([(statements, MAX_STATEMENTS), (rows, MAX_ROWS)]);
            counted.into_iter().find_map(|(positions, most)| positions.get(most))
        }
        3 => map.objects.get(place),
        4 => variables.get(place).or_else(|| rows.get(place.checked_sub(variables.len())?)),
        5 | 6 => statements.get(place),
        _ => None,
    };
    Some(*found.unwrap_or(name))
}
