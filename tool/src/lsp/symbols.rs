//! The outline of a document: objects, routines with their variables.

use super::document::Document;
use super::json::Json;
use super::protocol::{range, Client};
use super::text::{Position, Text};
use crate::diagnostics::Pos;
use crate::map::RoutineMap;
use crate::printer::Printer;
use crate::program::{self, Program};
use std::ops::Range;

const FUNCTION: u32 = 12;
const VARIABLE: u32 = 13;
const ARRAY: u32 = 18;

struct Symbol {
    name: String,
    detail: String,
    kind: u32,
    range: Range<Position>,
    name_range: Range<Position>,
    children: Vec<Symbol>,
}

/// Of a text that does not read the symbols of the last one that did.
pub fn symbols(document: &Document, uri: &str, client: &Client) -> Json {
    let symbols = document.last_read().and_then(|program| {
        let text = program.text.as_ref()?;
        Some(Outline { lines: &document.text, program, text }.symbols())
    });
    let symbols = symbols.unwrap_or_default();
    if client.symbols_in_symbols {
        return Json::array(symbols.iter().map(Symbol::json));
    }
    let mut flat = Vec::new();
    symbols.iter().for_each(|symbol| symbol.flat(uri, None, &mut flat));
    Json::Array(flat)
}

struct Outline<'a> {
    /// The lines that positions are counted by.
    lines: &'a Text,
    program: &'a Program,
    text: &'a program::Text,
}

impl Outline<'_> {
    fn symbols(&self) -> Vec<Symbol> {
        let program::Text { parts, map, names, .. } = self.text;
        let lengths = parts.first().map_or(&[][..], |table| &table.objects);
        let objects = names.objects.iter().zip(lengths).zip(&map.objects).map(|((name, length), at)| {
            let checked = if *length < 0 { "nt_checked" } else { "checked" };
            self.named(name, format!("{checked}[{}]", length.unsigned_abs()), ARRAY, *at)
        });
        let routines = map.routines.iter().enumerate().map(|(number, routine)| self.routine(number, routine));
        objects.chain(routines).collect()
    }

    fn routine(&self, number: usize, map: &RoutineMap) -> Symbol {
        let program::Text { parts, names, .. } = self.text;
        let routine = &names.routines[number];
        let printer = Printer::new(parts, &self.program.facts, names, number);
        let variables = map.variables.iter().enumerate();
        let variable =
            |(v, at): (usize, &Pos)| self.named(&routine.variables[v], printer.declaration(v), VARIABLE, *at);
        let result = if routine.has_result { "unsigned" } else { "void" };
        let symbol = self.named(&routine.name, result.to_string(), FUNCTION, map.name);
        let start = self.lines.position(Pos { column: 1, ..map.name });
        let range = start..self.lines.position(map.end).max(symbol.name_range.end);
        Symbol { range, children: variables.map(variable).collect(), ..symbol }
    }

    fn named(&self, name: &str, detail: String, kind: u32, at: Pos) -> Symbol {
        let end = Pos { column: at.column + name.chars().count() as u32, ..at };
        let range = self.lines.position(at)..self.lines.position(end);
        Symbol {
            name: name.to_string(),
            detail,
            kind,
            name_range: range.clone(),
            range,
            children: Vec::new(),
        }
    }
}

impl Symbol {
    fn json(&self) -> Json {
        let json = Json::object([
            ("name", self.name.as_str().into()),
            ("detail", self.detail.as_str().into()),
            ("kind", self.kind.into()),
            ("range", range(&self.range)),
            ("selectionRange", range(&self.name_range)),
        ]);
        if self.children.is_empty() {
            return json;
        }
        json.with("children", Json::array(self.children.iter().map(Symbol::json)))
    }

    /// As a list, for clients that know no other.
    fn flat(&self, uri: &str, container: Option<&str>, list: &mut Vec<Json>) {
        let location = Json::object([("uri", uri.into()), ("range", range(&self.range))]);
        let json = Json::object([
            ("name", self.name.as_str().into()),
            ("kind", self.kind.into()),
            ("location", location),
        ]);
        list.push(match container {
            Some(container) => json.with("containerName", container.into()),
            None => json,
        });
        self.children.iter().for_each(|child| child.flat(uri, Some(&self.name), list));
    }
}
