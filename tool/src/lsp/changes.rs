//! What changed in a program since it was checked: what a re-check of a part has to know.

use crate::program::Program;
use crate::table::{extent, Table, STATEMENT_WORDS};
use std::ops::Range;

#[derive(Debug, PartialEq, Eq)]
pub enum Change {
    /// Nothing that the tables hold: comments, names, lines.
    Nothing,
    /// Top-level statements in one place of the only routine: those of the old table, and what stands there in the new one. Both are numbers of
    /// records, whole statements with their blocks.
    Statements {
        old: Range<usize>,
        new: Range<usize>,
    },
    Anything,
}

pub fn change(old: &Program, new: &Program) -> Change {
    if old.tables == new.tables && old.facts == new.facts {
        return Change::Nothing;
    }
    let only = |program: &Program| match &program.tables[..] {
        [table] => Table::split(table).ok(),
        _ => None,
    };
    let (Some(before), Some(after)) = (only(old), only(new)) else { return Change::Anything };
    let declared = |table: &Table| (table.objects.clone(), table.variables.clone(), table.rows.clone());
    if old.facts != new.facts || declared(&before) != declared(&after) {
        return Change::Anything;
    }
    let (old, new) = (top_level(&before.statements), top_level(&after.statements));
    let (first, rest) = common_ends(&old, &new);
    let records = |statements: &[&[Record]]| statements.iter().map(|statement| statement.len()).sum();
    let place = |statements: &[&[Record]]| {
        records(&statements[..first])..records(&statements[..statements.len() - rest])
    };
    Change::Statements { old: place(&old), new: place(&new) }
}

/// How many elements two lists begin with alike, and with how many others they end alike.
pub fn common_ends<T: PartialEq>(old: &[T], new: &[T]) -> (usize, usize) {
    let same = |(a, b): &(&T, &T)| a == b;
    let first = old.iter().zip(new).take_while(same).count();
    let rest = old[first..].iter().rev().zip(new[first..].iter().rev()).take_while(same).count();
    (first, rest)
}

type Record = [i32; STATEMENT_WORDS];

/// The statements outside of all blocks, each with its own.
pub fn top_level(mut rest: &[Record]) -> Vec<&[Record]> {
    let mut statements = Vec::new();
    while let Some(first) = rest.first() {
        let (statement, others) = rest.split_at(extent(first).min(rest.len()));
        statements.push(statement);
        rest = others;
    }
    statements
}

#[cfg(test)]
mod tests {
    use super::*;

    fn program(statements: &str) -> Program {
        let text = format!(
            "void f(array_ptr<unsigned> p : count(n), unsigned n, unsigned x)\n{{\n{statements}\n}}\n"
        );
        Program::of_text("r.c", text, true).expect("a text")
    }

    fn between(old: &str, new: &str) -> Change {
        change(&program(old), &program(new))
    }

    #[test]
    fn what_tables_do_not_hold_is_no_change() {
        assert_eq!(between("x = 1;", "// one\n  x  =  0x1;"), Change::Nothing);
    }

    #[test]
    fn one_place_of_the_top_level_is_found() {
        let statements = |old, new| Change::Statements { old, new };
        assert_eq!(between("x = 1; x = 2; x = 3;", "x = 1; x = 7; x = 3;"), statements(1..2, 1..2));
        assert_eq!(between("x = 1; x = 3;", "x = 1; x = 2; x = 2; x = 3;"), statements(1..1, 1..3));
        assert_eq!(between("x = 1; x = 1;", "x = 1;"), statements(1..2, 1..1));
        assert_eq!(between("", "x = 1;"), statements(0..0, 0..1));
        // A change inside of a block is one of the whole statement.
        let blocks = |inner: &str| format!("x = 1; if (x > 0) {{ x = 2; {inner} }} else {{ x = 3; }} x = 4;");
        assert_eq!(between(&blocks(""), &blocks("x = 5;")), statements(1..4, 1..5));
    }

    #[test]
    fn other_changes_are_whole() {
        assert_eq!(between("where p : count(0);", "where p : count(n);"), Change::Anything);
        assert_eq!(between("x = 1;", "where p : count(0); x = 1;"), Change::Anything);
        let listed = "while (x > 0) where x <= n { x = x - 1; }";
        assert_eq!(between(listed, "while (x > 0) where x >= n { x = x - 1; }"), Change::Anything);
        let set = Program::of_text(
            "s.c",
            "void f(unsigned n) { n = 1; }\nvoid g(unsigned n) { n = 1; }\n".to_string(),
            true,
        );
        assert_eq!(change(&program("x = 1;"), &set.expect("a set")), Change::Anything);
    }
}
