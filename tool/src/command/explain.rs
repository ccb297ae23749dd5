//! `mizzengrape explain`: a refusal's or a stop's page of the manual, or what is known at a line.

use super::arguments::{Arguments, Usage};
use super::Output;
use crate::explain::{pages, state};
use crate::library::{self, Verdict};
use crate::program::Program;

pub const USAGE: Usage = Usage {
    help: "\
mizzengrape explain NUMBER          mizzengrape explain refusals
mizzengrape explain stop NUMBER     mizzengrape explain stops
mizzengrape explain FILE [LINE] [--facts F]

A number: the page of docs/FORMAT.md about that refusal, or that stop of a run;
without one they are listed. A file: the facts, the known and the declared
bounds before the statement that begins on that line (by default the refused
one), of a while also its loop facts. A line of loop facts stands for its while.

    --facts F   the list of loop facts of a table, as words in a file
",
    flags: &["--short"],
    options: &["--facts"],
    least_files: 1,
    most_files: 2,
};

pub fn explain(arguments: &Arguments) -> Result<Output, String> {
    let words: Vec<&str> = arguments.files.iter().map(String::as_str).collect();
    let heading = match words[..] {
        [number] if number.parse::<u32>().is_ok() => format!("Refusal {number}"),
        ["stop" | "stops"] => return Ok(Output { out: pages::headings("Stop"), ..Output::default() }),
        ["refusal" | "refusals"] => {
            return Ok(Output { out: pages::headings("Refusal"), ..Output::default() })
        }
        ["stop", number] => format!("Stop {number}"),
        _ => return at_line(arguments, words.get(1).copied()),
    };
    let page = pages::page(&heading).ok_or(format!("error: there is no {}\n", heading.to_lowercase()))?;
    Ok(Output { out: page, ..Output::default() })
}

fn at_line(arguments: &Arguments, line: Option<&str>) -> Result<Output, String> {
    let program = Program::load(&arguments.files[..1], arguments.option("--facts"), arguments.is_short())?;
    let name = &program.name;
    let wrong = |what: String| format!("{name}: error: {what}\n");
    let lack = |lack| program.lacking(lack, arguments.is_short());
    let checked = library::check(&program.tables, &program.facts).map_err(lack)?;
    let statement = match (line, checked.verdict) {
        (Some(line), _) => {
            let number = line.parse::<u32>().map_err(|_| wrong(format!("{line} is no line")))?;
            let found = program.text.as_ref().and_then(|text| text.map.statement_at(number));
            let found = found.or_else(|| loop_of_fact(&program, number));
            found.ok_or_else(|| wrong(format!("no statement begins on line {line}")))?
        }
        (None, Verdict::Refused(refusal)) if refusal.number == 17 => {
            let head = loop_of(&program, refusal.place);
            (0, head.ok_or_else(|| wrong(format!("{refusal}: no statement was looked at")))?)
        }
        (None, Verdict::Refused(refusal)) if refusal.number >= 7 && refusal.number != 15 => {
            (refusal.routine.unwrap_or(0), refusal.place)
        }
        (None, Verdict::Refused(refusal)) => {
            return Err(wrong(format!("{refusal}: no statement was looked at")))
        }
        (None, Verdict::Accepted) => return Err(wrong("accepted: name a line".to_string())),
    };
    let out = state(&program, statement, arguments.is_short()).map_err(wrong)?;
    Ok(Output { out, ..Output::default() })
}

/// The while that an entry of the list is about; none where the entry names none.
fn loop_of(program: &Program, entry: usize) -> Option<usize> {
    let head = usize::try_from(*program.facts.chunks_exact(4).nth(entry)?.first()?).ok()?;
    let table = program.text.as_ref()?.parts.first()?;
    table.statements.get(head).filter(|record| record[0] == 12).map(|_| head)
}

/// The while whose loop facts stand on a line.
fn loop_of_fact(program: &Program, line: u32) -> Option<(usize, usize)> {
    let map = program.text.as_ref()?.map.routines.first()?;
    let entry = map.facts.iter().position(|at| at.line == line)?;
    Some((0, loop_of(program, entry)?))
}
