//! Tables to canonical text. The tables have passed causes 1 to 6, or come from a text: every number names something.

mod expressions;
mod statements;

pub use expressions::plus;

use crate::names::Names;
use crate::table::Table;

/// The text of a set of tables and of the list of loop facts of a single one.
pub fn print(tables: &[Table], facts: &[i32], names: &Names) -> String {
    print_all(tables, facts, names, false)
}

/// The same with each statement's number behind it.
pub fn print_numbered(tables: &[Table], facts: &[i32], names: &Names) -> String {
    print_all(tables, facts, names, true)
}

fn print_all(tables: &[Table], facts: &[i32], names: &Names, numbers: bool) -> String {
    let mut text = String::new();
    let objects = &tables[0].objects;
    for (length, name) in objects.iter().zip(&names.objects) {
        let checked = if *length < 0 { "nt_checked" } else { "checked" };
        text.push_str(&format!("unsigned {name} {checked}[{}];\n", length.unsigned_abs()));
    }
    for routine in 0..tables.len() {
        if routine > 0 || !objects.is_empty() {
            text.push('\n');
        }
        text.push_str(&Printer::new(tables, facts, names, routine).routine(numbers));
    }
    text
}

/// What prints the parts of one routine.
#[derive(Clone, Copy)]
pub struct Printer<'a> {
    pub table: &'a Table,
    tables: &'a [Table],
    pub facts: &'a [i32],
    names: &'a Names,
    routine: usize,
}

impl<'a> Printer<'a> {
    pub fn new(tables: &'a [Table], facts: &'a [i32], names: &'a Names, routine: usize) -> Printer<'a> {
        Printer { table: &tables[routine], tables, facts, names, routine }
    }

    fn routine(&self, numbers: bool) -> String {
        let names = &self.names.routines[self.routine];
        let declarations: Vec<String> =
            (0..self.table.variables.len()).map(|v| self.declaration(v)).collect();
        let (parameters, locals) = declarations.split_at(names.parameters);
        let result = if names.has_result { "unsigned" } else { "void" };
        let listed = match parameters {
            [] => "void".to_string(),
            _ => format!("\n    {}", parameters.join(",\n    ")),
        };
        let mut text = format!("{result} {}({listed})\n{{\n", names.name);
        let mut head: Vec<String> = locals.iter().map(|local| format!("{local};")).collect();
        head.extend(self.named_rows());
        head.iter().for_each(|line| text.push_str(&format!("    {line}\n")));
        let has_more = names.has_result || !self.table.statements.is_empty();
        if !head.is_empty() && has_more {
            text.push('\n');
        }
        self.block(0, self.table.statements.len(), 1, numbers, &mut text);
        if let (true, Some(last)) = (names.has_result, names.variables.last()) {
            text.push_str(&format!("    return {last};\n"));
        }
        text.push_str("}\n");
        text
    }

    /// `array_ptr<unsigned> p : count(n)`.
    pub fn declaration(&self, v: usize) -> String {
        let record = &self.table.variables[v];
        let name = self.name(v as i32);
        if record[0] == 0 {
            return format!("unsigned {name}");
        }
        let row = match record[1] {
            0 => String::new(),
            cells => format!(" checked[{cells}]"),
        };
        format!("{}<unsigned{row}> {name} : {}", self.pointer_type(v as i32), self.declared(v as i32))
    }

    /// `#pragma rows` or the definitions of named rows.
    fn named_rows(&self) -> Vec<String> {
        let Some(rows) = &self.table.rows else { return Vec::new() };
        if rows.is_empty() {
            return vec!["#pragma rows".to_string()];
        }
        if self.rows_inline() {
            return Vec::new();
        }
        let line = |(number, row): (usize, &[i32; 6])| {
            let ends = self.ends(*row, self.table.size(row[0]));
            format!("#define {} {ends}", self.row_name(number))
        };
        rows.iter().enumerate().map(line).collect()
    }

    /// Rows are printed where they are used when assembling allots the same numbers again: each is used, no two are equal, and
    /// they come in the order of first use.
    pub(crate) fn rows_inline(&self) -> bool {
        let rows = self.table.rows.as_deref().unwrap_or(&[]);
        let mut next = 0;
        for record in self.table.statements.iter().filter(|record| record[0] == 14) {
            match record[2] as usize {
                row if row == next => next += 1,
                row if row > next => return false,
                _ => {}
            }
        }
        next == rows.len() && rows.iter().enumerate().all(|(number, row)| !rows[..number].contains(row))
    }

    pub fn name(&self, variable: i32) -> &'a str {
        &self.names.routines[self.routine].variables[variable as usize]
    }

    /// How many variables stand in the parentheses.
    pub fn parameters(&self) -> usize {
        self.names.routines[self.routine].parameters
    }

    /// The lengths of the objects, below 0 for terminated ones: those of routine 0.
    pub fn objects(&self) -> &'a [i32] {
        &self.tables[0].objects
    }

    pub fn object_name(&self, object: i32) -> &'a str {
        &self.names.objects[object as usize]
    }

    pub fn row_name(&self, row: usize) -> &'a str {
        &self.names.routines[self.routine].rows[row]
    }
}
