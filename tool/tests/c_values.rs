//! Canonical text has C's value: ends, moved pointers and cells are read here by C's own arithmetic, apart from the assembler, and
//! compared with what the words mean.

mod support;

use mizzengrape_tool::names::Names;
use mizzengrape_tool::printer::Printer;
use mizzengrape_tool::program::printable;
use mizzengrape_tool::table::Table;
use support::{generate, Random};

/// The values of variables, and the cells in an element of each.
struct Values<'a> {
    table: &'a Table,
    names: &'a [String],
    values: Vec<i64>,
}

impl Values<'_> {
    fn number_of(&self, name: &str) -> usize {
        self.names.iter().position(|other| other == name).unwrap_or_else(|| panic!("no variable {name}"))
    }

    fn size(&self, pointer: usize) -> i64 {
        i64::from(self.table.size(pointer as i32))
    }

    fn integer(&self, text: &str) -> i64 {
        text.parse().unwrap_or_else(|_| self.values[self.number_of(text)])
    }

    /// `n`, `5`, `n + 5`, `3 * n` and sums of such, as whole numbers.
    fn sum(&self, text: &str) -> i64 {
        let mut total = 0;
        for part in text.replace(" - ", " + -").split(" + ").filter(|part| !part.is_empty()) {
            total += part.split(" * ").map(|factor| self.integer(factor)).product::<i64>();
        }
        total
    }

    /// A pointer and what is added to it: by elements, or by cells behind a cast.
    fn address(&self, text: &str) -> i64 {
        let uncast = text.split_once("<unsigned>)").map(|(_, rest)| rest);
        let (name, rest) = uncast.unwrap_or(text).split_once(' ').unwrap_or((uncast.unwrap_or(text), ""));
        let pointer = self.number_of(name);
        let unit = if uncast.is_some() { 1 } else { self.size(pointer) };
        let added = match rest.strip_prefix("- ") {
            Some(number) => self.sum(&format!("-{number}")),
            None => self.sum(rest.trim_start_matches("+ ")),
        };
        self.values[pointer] + unit * added
    }

    /// `p[i]`, or `p[i][c]` where an element is an array of cells.
    fn cell(&self, text: &str) -> i64 {
        let (name, rest) = text.split_once('[').expect("an index");
        let indexes: Vec<&str> = rest.trim_end_matches(']').split("][").collect();
        let pointer = self.number_of(name);
        let row = self.table.variables[pointer][1] != 0;
        assert_eq!(indexes.len(), if row { 2 } else { 1 }, "{text}");
        let column = indexes.get(1).map_or(0, |column| self.sum(column));
        self.values[pointer] + self.size(pointer) * self.sum(indexes[0]) + column
    }

    /// What the words mean: q + size n + k, -1 for no integer.
    fn meant(&self, q: i32, n: i32, k: i32, size: i64) -> i64 {
        let integer = if n == -1 { 0 } else { self.values[n as usize] };
        self.values[q as usize] + size * integer + i64::from(k)
    }
}

#[test]
fn texts_have_the_values_of_their_words() {
    let mut compared = 0;
    for number in 0..4_000 {
        let random = &mut Random::of(11, number);
        let case = generate::case(random);
        let parts = printable(&case.tables, &case.facts).expect("a generated table reads");
        let names = Names::canonical(&parts);
        for (routine, table) in parts.iter().enumerate() {
            let values = table.variables.iter().map(|_| random.below(1 << 20) as i64).collect();
            let values = Values { table, names: &names.routines[routine].variables, values };
            let printer = Printer::new(&parts, &case.facts, &names, routine);
            compared += ends(&values, &printer) + statements(&values, &printer);
        }
    }
    assert!(compared > 15_000, "{compared}");
}

fn ends(values: &Values, printer: &Printer) -> usize {
    let mut compared = 0;
    for (p, record) in values.table.variables.iter().enumerate().filter(|(_, record)| record[0] != 0) {
        let size = values.size(p);
        for end in record[2..].chunks_exact(3) {
            let text = printer.end([end[0], end[1]], i64::from(end[2]), size as i32);
            assert_eq!(values.address(&text), values.meant(end[0], end[1], end[2], size), "{text}");
            compared += 1;
        }
        let declared = printer.declared(p as i32);
        if let Some(count) = declared.strip_prefix("count(") {
            let upper = values.values[p] + size * values.sum(count.trim_end_matches(')'));
            assert_eq!(upper, values.meant(record[5], record[6], record[7], size), "{declared}");
        }
    }
    compared
}

fn statements(values: &Values, printer: &Printer) -> usize {
    let mut compared = 0;
    for (s, record) in values.table.statements.iter().enumerate() {
        let text = printer.statement(s);
        let [kind, a, b, c, d, ..] = *record;
        let (left, right) = text.split_once(" = ").unwrap_or(("", ""));
        let size = |pointer: i32| values.size(pointer as usize);
        match kind {
            6 => assert_eq!(values.address(right), values.meant(b, -1, c, 1), "{text}"),
            7 => assert_eq!(values.address(right), values.meant(b, c, 0, size(b)), "{text}"),
            8 => assert_eq!(values.cell(right), values.meant(b, c, d, size(b)), "{text}"),
            9 => assert_eq!(values.cell(left), values.meant(a, b, c, size(a)), "{text}"),
            2 => assert_eq!(values.sum(right), values.meant(b, -1, c, 1), "{text}"),
            _ => continue,
        }
        compared += 1;
    }
    compared
}
