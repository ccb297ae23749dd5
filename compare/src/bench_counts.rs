//! Instructions a statement and a step, counted by callgrind (valgrind): unlike a time, a number that other work on the
//! machine does not move. This program runs itself under callgrind with two amounts of work and divides the difference of
//! the instructions by that of the amounts, so that what is done once does not count.

use crate::bench::loop_input;
use crate::linked::Proved;
use crate::proved::{Fast, Implementation};
use oracle::draft::Draft;
use std::io::{ErrorKind, Read, Write};
use std::process::{Command, Stdio};
use std::sync::Once;

const FORMS: [(&str, &dyn Implementation); 2] = [("fast", &Fast), ("proved", &Proved)];

/// What is counted: checks of tables of so many statements in all, or a run of one table.
#[derive(Clone, Copy)]
pub enum Work {
    Check { statements: usize },
    Run,
}

impl Work {
    fn name(self) -> &'static str {
        match self {
            Work::Check { .. } => "check",
            Work::Run => "run",
        }
    }

    /// Two amounts of work, in checks of all tables or in steps, and what one more of it is in units.
    fn amounts(self) -> ([u32; 2], f64, &'static str) {
        match self {
            Work::Check { statements } => ([1, 2], statements as f64, "statement"),
            Work::Run => ([1_000, 21_000], 1.0, "step"),
        }
    }
}

/// Prints the instructions of both forms, or once that there is no callgrind.
pub fn counts(work: Work, title: &str, tables: &[Vec<i32>]) {
    let ([less, more], units, unit) = work.amounts();
    let counted = FORMS.map(|(form, _)| {
        let [first, second] = [less, more].map(|amount| counted(work.name(), form, amount, tables));
        Ok((second? - first?) / (f64::from(more - less) * units))
    });
    match counted {
        [Ok(fast), Ok(proved)] => println!(
            "{}, {title}: {fast:.1} instructions a {unit} fast, {proved:.1} proved, {:.2} of the fast form's",
            work.name(),
            proved / fast
        ),
        [Err(why), _] | [_, Err(why)] => {
            let why: String = why;
            static SAID: Once = Once::new();
            SAID.call_once(|| println!("no instructions counted: {why}"));
        }
    }
}

/// The instructions of this program with an amount of work of one form.
fn counted(work: &str, form: &str, amount: u32, tables: &[Vec<i32>]) -> Result<f64, String> {
    let program = std::env::current_exe().map_err(|error| error.to_string())?;
    let mut command = Command::new("valgrind");
    command.args(["--tool=callgrind", "--callgrind-out-file=/dev/null"]).arg(program);
    command.args(["work", work, form, &amount.to_string()]);
    command.stdin(Stdio::piped()).stdout(Stdio::null()).stderr(Stdio::piped());
    let mut child = command.spawn().map_err(|error| match error.kind() {
        ErrorKind::NotFound => "valgrind is not installed".to_string(),
        _ => error.to_string(),
    })?;
    let mut input = child.stdin.take().expect("a pipe");
    input.write_all(text_of(tables).as_bytes()).map_err(|error| error.to_string())?;
    drop(input);
    let output = child.wait_with_output().map_err(|error| error.to_string())?;
    let report = String::from_utf8_lossy(&output.stderr);
    match collected(&report) {
        Some(count) if output.status.success() => Ok(count),
        _ => Err(format!("valgrind failed: {report}")),
    }
}

/// What callgrind reports at the end.
fn collected(report: &str) -> Option<f64> {
    let (_, count) = report.lines().find_map(|line| line.split_once("Collected : "))?;
    count.trim().parse().ok()
}

/// The work itself, of tables from the standard input.
pub fn work(work: &str, form: &str, amount: u32) -> Result<bool, String> {
    let mut text = String::new();
    std::io::stdin().read_to_string(&mut text).map_err(|error| error.to_string())?;
    let tables = tables_of(&text)?;
    let (_, form) = FORMS.iter().find(|(name, _)| *name == form).ok_or("no such form")?;
    Ok(match work {
        "check" => (0..amount).all(|_| tables.iter().all(|table| form.check_alone(table)[0] == 0)),
        "run" => tables.iter().all(|table| is_spent(*form, table, amount)),
        _ => return Err("no such work".to_string()),
    })
}

/// A run of a loop over its object ends with its allowance.
fn is_spent(form: &dyn Implementation, table: &[i32], steps: u32) -> bool {
    let cells = Draft::from_words(table).expect("a right directory").objects[0];
    form.run_alone(table, &mut loop_input(cells as u32, steps))[0] == 1
}

/// Tables as lines of words.
fn text_of(tables: &[Vec<i32>]) -> String {
    let line = |table: &Vec<i32>| table.iter().map(i32::to_string).collect::<Vec<_>>().join(" ") + "\n";
    tables.iter().map(line).collect()
}

fn tables_of(text: &str) -> Result<Vec<Vec<i32>>, String> {
    let word = |word: &str| word.parse().map_err(|_| format!("not a word: {word}"));
    text.lines().map(|line| line.split_whitespace().map(word).collect()).collect()
}

#[cfg(test)]
mod tests {
    use super::*;
    use crate::bench::loop_table;

    #[test]
    fn tables_come_through_as_they_are() {
        let tables = vec![loop_table(), vec![-1, i32::MIN, i32::MAX]];
        assert_eq!(tables_of(&text_of(&tables)), Ok(tables));
        assert!(tables_of("1 x").is_err());
    }

    #[test]
    fn the_count_is_taken_from_the_report() {
        let report = "==7== Events    : Ir\n==7== Collected : 123456\n==7== \n";
        assert_eq!(collected(report), Some(123_456.0));
        assert_eq!(collected("==7== Events    : Ir\n"), None);
    }

    #[test]
    fn the_counted_runs_take_all_their_steps() {
        for (_, form) in FORMS {
            assert!(is_spent(form, &loop_table(), 1_000) && form.check_alone(&loop_table())[0] == 0);
        }
    }
}
