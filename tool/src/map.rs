//! Where in the text each numbered thing of the tables stands.

use crate::diagnostics::{Pos, Span};

#[derive(Clone, Debug, Default)]
pub struct Map {
    pub objects: Vec<Pos>,
    /// The dimensions that each object is declared with.
    pub dimensions: Vec<Vec<u32>>,
    pub routines: Vec<RoutineMap>,
}

#[derive(Clone, Debug, Default)]
pub struct RoutineMap {
    pub name: Pos,
    /// The position behind it.
    pub end: Pos,
    pub variables: Vec<Pos>,
    pub statements: Vec<Pos>,
    /// The position behind each statement, with its blocks.
    pub ends: Vec<Pos>,
    pub rows: Vec<Pos>,
    pub facts: Vec<Pos>,
    /// The whiles, and where behind their conditions loop facts stand or may stand.
    pub loops: Vec<(usize, Span)>,
    /// The position behind the then block of each if, in their order.
    pub then_ends: Vec<Pos>,
}

impl Map {
    /// Lines `statement ROUTINE NUMBER LINE:COLUMN`, likewise variables, objects, rows and facts. Objects are those of routine 0.
    pub fn lines(&self) -> String {
        let mut lines = String::new();
        let mut list = |what: &str, routine: usize, positions: &[Pos]| {
            for (number, at) in positions.iter().enumerate() {
                lines.push_str(&format!("{what} {routine} {number} {at}\n"));
            }
        };
        list("object", 0, &self.objects);
        for (number, routine) in self.routines.iter().enumerate() {
            list("variable", number, &routine.variables);
            list("row", number, &routine.rows);
            list("statement", number, &routine.statements);
            list("fact", number, &routine.facts);
        }
        lines
    }

    /// The first statement that begins on a line, with its routine.
    pub fn statement_at(&self, line: u32) -> Option<(usize, usize)> {
        let found = |map: &RoutineMap| map.statements.iter().position(|at| at.line == line);
        self.routines.iter().enumerate().find_map(|(number, map)| found(map).map(|s| (number, s)))
    }
}
