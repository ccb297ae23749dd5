//! Rows in force: which where statement (kind 14) declared the bounds that a pointer has at a statement.

use crate::table::{Table, ROW_WORDS};

/// For each variable the kind 14 that declared its bounds; none while its own are in force.
///
/// The two sides of an if, and the head and the end of a while's body, leave the same rows wherever the check has come past them, so one
/// walk down to a statement tells what is in force there.
#[derive(Clone, Debug, PartialEq, Eq)]
pub struct InForce(Vec<Option<usize>>);

impl InForce {
    /// Before a statement; the number behind the last one stands for the end of the table.
    pub fn before(table: &Table, statement: usize) -> InForce {
        let mut rows = InForce(vec![None; table.variables.len()]);
        rows.walk(table, 0, table.statements.len(), statement);
        rows
    }

    /// What the statements from start to end, a block or a part of one, leave.
    pub fn after(mut self, table: &Table, start: usize, end: usize) -> InForce {
        self.walk(table, start, end, end);
        self
    }

    /// Goes on from start, to the wanted statement or to the end; whether the statement was met.
    fn walk(&mut self, table: &Table, start: usize, end: usize, wanted: usize) -> bool {
        let mut s = start;
        while s < end.min(wanted) {
            let record = &table.statements[s];
            let next = s + table.extent(s);
            let middle = if record[0] == 11 { s + 1 + record[5] as usize } else { next };
            let before = self.clone();
            if record[0] == 14 {
                self.0[record[1] as usize] = Some(s);
            } else if self.walk(table, s + 1, middle, wanted) {
                return true;
            }
            if middle < next && wanted >= middle && wanted < next {
                *self = before;
                return self.walk(table, middle, next, wanted);
            }
            s = next;
        }
        wanted >= start && wanted < end
    }

    /// The kind 14 that declared a pointer's bounds.
    pub fn statement(&self, pointer: usize) -> Option<usize> {
        self.0[pointer]
    }

    /// The number of the row in force; the variable's own bound counts as row -1.
    pub fn row(&self, table: &Table, pointer: usize) -> i32 {
        self.0[pointer].map_or(-1, |s| table.statements[s][2])
    }

    /// The six words of the bounds in force.
    pub fn bounds(&self, table: &Table, pointer: usize) -> [i32; ROW_WORDS] {
        let row = usize::try_from(self.row(table, pointer)).ok();
        row.and_then(|row| table.row(row)).unwrap_or_else(|| table.own_bounds(pointer))
    }
}

#[cfg(test)]
mod tests {
    use super::*;
    use oracle::checker::{watch, Known, Observer, Rows};
    use oracle::facts::Facts;
    use oracle::table::decode;
    use std::fs;
    use std::path::Path;

    fn declare(row: i32) -> [i32; 7] {
        [14, 0, row, 0, 0, 0, 0]
    }

    /// if (p == NULL) { where p : row 1; } else { where p : row 0; where p : row 1; } where p : row 2
    #[test]
    fn each_side_begins_with_what_was_in_force() {
        let table = Table {
            objects: Vec::new(),
            variables: vec![[1, 0, 0, -1, 0, 0, -1, 9]],
            statements: vec![
                declare(2),
                [11, 0, 4, 1, 0, 1, 2],
                declare(1),
                declare(0),
                declare(1),
                declare(2),
            ],
            rows: Some(vec![[0, -1, 0, 0, -1, 1], [0, -1, 0, 0, -1, 2], [0, -1, 0, 0, -1, 3]]),
        };
        let row = |statement| InForce::before(&table, statement).row(&table, 0);
        assert_eq!([0, 1, 2, 3, 4, 5, 6].map(row), [-1, 2, 2, 2, 0, 1, 2]);
        let head = InForce::before(&table, 1);
        let sides = [(2, 3), (3, 5)].map(|(start, end)| head.clone().after(&table, start, end).statement(0));
        assert_eq!(sides, [Some(2), Some(4)]);
        assert_eq!(InForce::before(&table, 0).bounds(&table, 0), [0, -1, 0, 0, -1, 9]);
        assert_eq!(head.bounds(&table, 0), [0, -1, 0, 0, -1, 3]);
    }
    struct Compared<'a>(&'a Table, usize);

    impl Observer for Compared<'_> {
        fn before(&mut self, statement: usize, _: &Facts, rows: &Rows, _: &Known) {
            let Compared(table, count) = self;
            for p in 0..table.variables.len() {
                let row = InForce::before(table, statement).row(table, p);
                assert_eq!(u8::try_from(row).ok(), rows.row(p as u8), "statement {statement} of {table:?}");
                *count += usize::from(row >= 0);
            }
        }
    }

    #[test]
    fn the_second_implementation_has_the_same_rows() {
        let vectors = Path::new(env!("CARGO_MANIFEST_DIR")).join("../vectors/random.txt");
        let mut count = 0;
        for line in fs::read_to_string(vectors).expect("vectors").lines() {
            let Some(words) = line.strip_prefix("table:") else { continue };
            let words: Vec<i32> =
                words.split_whitespace().map(|word| word.parse().expect("a word")).collect();
            let (Ok(routine), Ok(table)) = (decode(&words), Table::split(&words)) else { continue };
            let mut compared = Compared(&table, 0);
            let _ = watch(&routine, &mut compared);
            count += compared.1;
        }
        assert!(count > 100, "{count}");
    }
}
