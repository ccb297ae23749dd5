//! Statements and blocks.

use super::expressions::plus;
use super::Printer;

impl Printer<'_> {
    /// The statements from start to end, one a line, with their blocks.
    pub(super) fn block(&self, start: usize, end: usize, depth: usize, numbers: bool, text: &mut String) {
        let mut s = start;
        while s < end {
            let next = s + self.table.extent(s);
            let mut line = |line: &str, number: bool| {
                let number = if number && numbers { format!(" // {s}") } else { String::new() };
                text.push_str(&format!("{:1$}{line}{number}\n", "", 4 * depth));
            };
            let record = &self.table.statements[s];
            match record[0] {
                11 => {
                    let middle = s + 1 + record[5] as usize;
                    line(&format!("{} {{", self.statement(s)), true);
                    self.block(s + 1, middle, depth + 1, numbers, text);
                    if middle < next {
                        text.push_str(&format!("{:1$}}} else {{\n", "", 4 * depth));
                        self.block(middle, next, depth + 1, numbers, text);
                    }
                }
                12 => {
                    let facts = self.facts_of(s);
                    match &facts[..] {
                        [] => line(&format!("{} {{", self.statement(s)), true),
                        [fact] => line(&format!("{} where {fact} {{", self.statement(s)), true),
                        [first, others @ ..] => {
                            line(&self.statement(s), true);
                            line(&format!("    where {first}"), false);
                            others.iter().for_each(|fact| line(&format!("      and {fact}"), false));
                            line("{", false);
                        }
                    }
                    self.block(s + 1, next, depth + 1, numbers, text);
                }
                13 => {
                    line("bundled {", true);
                    self.block(s + 1, next, depth + 1, numbers, text);
                }
                _ => line(&format!("{};", self.statement(s)), true),
            }
            if matches!(record[0], 11..=13) {
                text.push_str(&format!("{:1$}}}\n", "", 4 * depth));
            }
            s = next;
        }
    }

    /// A while's facts, in the order of the list.
    pub fn facts_of(&self, head: usize) -> Vec<String> {
        let entries = self.facts.chunks_exact(4).filter(|entry| entry[0] == head as i32);
        entries.map(|entry| self.fact(entry[1], entry[2], i64::from(entry[3]))).collect()
    }

    /// A statement without its blocks and without a semicolon.
    pub fn statement(&self, s: usize) -> String {
        let [kind, a, b, c, d, ..] = self.table.statements[s];
        let name = |variable: i32| self.name(variable);
        match kind {
            1 => format!("{} = {}", name(a), b as u32),
            2 => format!("{} = {}{}", name(a), name(b), plus(i64::from(c))),
            3 => format!("{} = {} {} {}", name(a), name(b), ["+", "-", "*"][d as usize], name(c)),
            4 => format!("{} = NULL", name(a)),
            5 => format!("{} = {}", name(a), self.object_name(b)),
            6 => format!("{} = {}", name(a), self.moved(b, i64::from(c))),
            7 => format!("{} = {} + {}", name(a), name(b), name(c)),
            8 => format!("{} = {}", name(a), self.cell(b, c, d)),
            9 => format!("{} = {}", self.cell(a, b, c), name(d)),
            10 => format!("dynamic_check({})", self.condition([a, b, c, d])),
            11 => format!("if ({})", self.condition([a, b, c, d])),
            12 => format!("while ({})", self.condition([a, b, c, d])),
            13 => "bundled".to_string(),
            14 => format!("where {} : {}", name(a), self.row(a, b)),
            _ => self.call(s),
        }
    }

    /// A row as a where statement names it.
    pub fn row(&self, p: i32, row: i32) -> String {
        if !self.rows_inline() {
            return self.row_name(row as usize).to_string();
        }
        let rows = self.table.rows.as_ref().expect("a row that is used is there");
        self.bounds(p, rows[row as usize])
    }

    /// A row as one writes it anew: by its bounds, which name the lowest row with these words, else by its name.
    pub fn row_to_write(&self, p: i32, row: i32) -> String {
        let rows = self.table.rows.as_deref().unwrap_or(&[]);
        let row = row as usize;
        if rows[..row].contains(&rows[row]) {
            self.row_name(row).to_string()
        } else {
            self.bounds(p, rows[row])
        }
    }

    /// `x = f(a, b)`; an argument left out before others is void.
    fn call(&self, s: usize) -> String {
        let [_, callee, result, arguments @ ..] = &self.table.statements[s];
        let routine = usize::try_from(*callee).ok().and_then(|callee| self.names.routines.get(callee));
        let callee = routine.map_or_else(|| format!("routines[{callee}]"), |routine| routine.name.clone());
        let given = arguments.iter().rposition(|&word| word != -1).map_or(0, |last| last + 1);
        let shown = |&word: &i32| if word == -1 { "void" } else { self.name(word) };
        let listed: Vec<&str> = arguments[..given].iter().map(shown).collect();
        let result = if *result == -1 { String::new() } else { format!("{} = ", self.name(*result)) };
        format!("{result}{callee}({})", listed.join(", "))
    }
}
