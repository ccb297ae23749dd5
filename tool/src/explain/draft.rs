//! A routine that is changed to try advice out: its table with its list of loop facts, whose entries move with their loops.

use super::context::Context;
use super::walk::{walk, Walk};
use super::Place;
use crate::table::{Table, STATEMENT_WORDS};

#[derive(Clone, Debug)]
pub struct Draft {
    pub table: Table,
    pub facts: Vec<i32>,
    pub context: Context,
}

impl Draft {
    pub fn of(place: &Place) -> Draft {
        let (table, facts) = (place.printer.table.clone(), place.printer.facts.to_vec());
        Draft { table, facts, context: place.context.clone() }
    }

    /// With one more statement before another, in its block.
    pub fn with_before(&self, statement: usize, record: [i32; STATEMENT_WORDS]) -> Draft {
        self.changed(self.table.with_before(statement, record), self.moved_from(statement))
    }

    /// With checks before a statement.
    pub fn with_checks(&self, statement: usize, conditions: &[[i32; 4]]) -> Draft {
        conditions.iter().rev().fold(self.clone(), |routine, &[left, relation, form, right]| {
            routine.with_before(statement, [10, left, relation, form, right, 0, 0])
        })
    }

    /// With one more statement at the end of an if's block: field 5 counts the then block, field 6 the else block.
    pub fn with_last(&self, head: usize, field: usize, record: [i32; STATEMENT_WORDS]) -> Draft {
        let before = self.table.statements[head][5..=field].iter().sum::<i32>() as usize;
        let facts = self.moved_from(head + 1 + before);
        self.changed(self.table.with_last(head, field, record), facts)
    }

    /// With so many plain statements of one block in a bundle, whose head has the number of the first one.
    pub fn with_bundle(&self, first: usize, count: usize) -> Draft {
        self.changed(self.table.with_bundle(first, count), self.moved_from(first))
    }

    fn changed(&self, table: Table, facts: Vec<i32>) -> Draft {
        Draft { table, facts, context: self.context.clone() }
    }

    /// The list where the loops from a statement on have moved by one.
    fn moved_from(&self, statement: usize) -> Vec<i32> {
        let mut facts = self.facts.clone();
        for entry in facts.chunks_exact_mut(4) {
            entry[0] += i32::from(entry[0] as usize >= statement);
        }
        facts
    }

    pub fn walk(&self, asked: Option<usize>) -> Walk {
        walk(&self.context, &self.table.words(), &self.facts, asked)
    }
}
