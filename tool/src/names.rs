//! What words do not hold: names, how many variables stand in the parentheses, void or unsigned.

use crate::files::{read_text, Loaded, NAMES};
use crate::table::Table;
use crate::tokens::is_name;
use std::collections::HashSet;

#[derive(Clone, Debug, Default, PartialEq, Eq)]
pub struct Names {
    pub objects: Vec<String>,
    pub routines: Vec<RoutineNames>,
}

#[derive(Clone, Debug, Default, PartialEq, Eq)]
pub struct RoutineNames {
    pub name: String,
    /// `unsigned` with a `return`, not `void`.
    pub has_result: bool,
    pub parameters: usize,
    pub variables: Vec<String>,
    pub rows: Vec<String>,
}

impl Names {
    /// The names and headers of the canonical text.
    pub fn canonical(tables: &[Table]) -> Names {
        let objects = tables.first().map_or(0, |table| table.objects.len());
        let routine = |(number, table): (usize, &Table)| {
            let (parameters, called) = longest_call(tables, number);
            let prefix = if tables.len() > 1 { format!("r{number}") } else { String::new() };
            RoutineNames {
                name: format!("r{number}"),
                has_result: called && table.variables.last().is_some_and(|record| record[0] == 0),
                parameters: if called {
                    parameters.min(table.variables.len())
                } else {
                    table.variables.len()
                },
                variables: table.variables.iter().enumerate().map(variable_name).collect(),
                rows: (0..table.rows.iter().flatten().count()).map(|row| format!("{prefix}b{row}")).collect(),
            }
        };
        Names {
            objects: (0..objects).map(|object| format!("o{object}")).collect(),
            routines: tables.iter().enumerate().map(routine).collect(),
        }
    }

    /// These names where there are some, the canonical ones for the rest, made different from all others.
    pub fn completed(&self, tables: &[Table]) -> Names {
        let mut names = Names::canonical(tables);
        let mut taken: HashSet<String> = self.all().cloned().collect();
        let mut complete = |names: &mut Vec<String>, given: &[String]| {
            for (number, name) in names.iter_mut().enumerate() {
                match given.get(number) {
                    Some(given) => name.clone_from(given),
                    None => {
                        while !taken.insert(name.clone()) {
                            name.push('_');
                        }
                    }
                }
            }
        };
        complete(&mut names.objects, &self.objects);
        for (routine, given) in names.routines.iter_mut().zip(&self.routines) {
            routine.name.clone_from(&given.name);
            routine.has_result = given.has_result;
            routine.parameters = given.parameters.min(routine.variables.len());
            complete(&mut routine.variables, &given.variables);
            complete(&mut routine.rows, &given.rows);
        }
        names
    }

    fn all(&self) -> impl Iterator<Item = &String> {
        let routines = self.routines.iter();
        let of_routines = routines.flat_map(|r| [&r.name].into_iter().chain(&r.variables).chain(&r.rows));
        self.objects.iter().chain(of_routines)
    }

    /// The names as a file: lines `object NUMBER NAME`, `routine NUMBER NAME void|unsigned PARAMETERS`,
    /// `variable ROUTINE NUMBER NAME`, `row ROUTINE NUMBER NAME`.
    pub fn lines(&self) -> String {
        let mut lines = String::new();
        for (number, name) in self.objects.iter().enumerate() {
            lines.push_str(&format!("object {number} {name}\n"));
        }
        for (r, routine) in self.routines.iter().enumerate() {
            let result = if routine.has_result { "unsigned" } else { "void" };
            lines.push_str(&format!("routine {r} {} {result} {}\n", routine.name, routine.parameters));
            for (v, name) in routine.variables.iter().enumerate() {
                lines.push_str(&format!("variable {r} {v} {name}\n"));
            }
            for (row, name) in routine.rows.iter().enumerate() {
                lines.push_str(&format!("row {r} {row} {name}\n"));
            }
        }
        lines
    }

    /// Reads a names file; the error is the number of the line that is wrong.
    pub fn read(text: &str) -> Result<Names, usize> {
        let mut names = Names::default();
        for (number, line) in text.lines().enumerate() {
            names.read_line(line).ok_or(number + 1)?;
        }
        Ok(names)
    }

    fn read_line(&mut self, line: &str) -> Option<()> {
        let words: Vec<&str> = line.split_whitespace().collect();
        match words[..] {
            [] => Some(()),
            ["object", number, name] => put(&mut self.objects, number, name),
            ["routine", number, name, result, parameters] => {
                if number.parse() != Ok(self.routines.len()) || !is_name(name) {
                    return None;
                }
                self.routines.push(RoutineNames {
                    name: name.to_string(),
                    has_result: match result {
                        "unsigned" => true,
                        "void" => false,
                        _ => return None,
                    },
                    parameters: parameters.parse().ok()?,
                    ..RoutineNames::default()
                });
                Some(())
            }
            ["variable", routine, number, name] => {
                put(&mut self.routines.get_mut(routine.parse::<usize>().ok()?)?.variables, number, name)
            }
            ["row", routine, number, name] => {
                put(&mut self.routines.get_mut(routine.parse::<usize>().ok()?)?.rows, number, name)
            }
            _ => None,
        }
    }
}

/// A names file.
pub fn read_names(path: &str, short: bool) -> Loaded<Names> {
    let read = Names::read(&read_text(path, &NAMES, short)?);
    read.map_err(|line| format!("{path}:{line}: error: no line of a names file\n"))
}

/// Names are listed in order.
fn put(names: &mut Vec<String>, number: &str, name: &str) -> Option<()> {
    if number.parse() != Ok(names.len()) || !is_name(name) {
        return None;
    }
    names.push(name.to_string());
    Some(())
}

fn variable_name((number, record): (usize, &[i32; 8])) -> String {
    let letter = match record[0] {
        0 => 'n',
        1 => 'p',
        _ => 's',
    };
    format!("{letter}{number}")
}

/// How many arguments the longest call of a routine gives, and whether there is any.
fn longest_call(tables: &[Table], callee: usize) -> (usize, bool) {
    let calls = tables.iter().flat_map(|table| &table.statements);
    let calls = calls.filter(|record| record[0] == 15 && record[1] == callee as i32);
    let lengths =
        calls.map(|record| record[3..].iter().rposition(|&word| word != -1).map_or(0, |last| last + 1));
    lengths.fold((0, false), |(longest, _), length| (longest.max(length), true))
}
