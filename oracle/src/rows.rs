//! Rows in force (point 2): which bound is a pointer's declared one.

use crate::table::{Bounds, Routine, Row, Var};

/// For each variable the row in force; `None` is its own bound, which "counts as row -1".
#[derive(Clone, Debug, PartialEq, Eq)]
pub struct Rows(Vec<Option<Row>>);

impl Rows {
    /// "at entry the variable's own is".
    pub fn at_entry(routine: &Routine) -> Rows {
        Rows(vec![None; routine.kinds.len()])
    }

    pub fn row(&self, p: Var) -> Option<Row> {
        self.0[usize::from(p)]
    }

    /// Kind 14: "it is the pointer's declared bound until another kind 14 for it".
    pub fn declare(&mut self, p: Var, row: Row) {
        self.0[usize::from(p)] = Some(row);
    }

    /// The declared bound of a variable; `None` for an integer.
    pub fn declared(&self, routine: &Routine, v: Var) -> Option<Bounds> {
        match self.row(v) {
            Some(row) => Some(routine.rows[usize::from(row)]),
            None => routine.bounds[usize::from(v)],
        }
    }
}
