//! `mizzengrape run`: a routine with an image, by the proved library.

use super::arguments::{Arguments, Usage};
use super::changes::{changes, due, Point};
use super::in_turn::in_turn;
use super::session::{end_line, open, read, Session, Wanted};
use super::trace::traced_whole;
use super::Output;
use crate::explain::second_run;
use crate::library::{Ended, Lent, Outcome};
use crate::program::Program;
use oracle::frame::Frame;

pub const USAGE: Usage = Usage {
    help: "\
mizzengrape run FILE IMAGE [--allowance N] [--facts F] [--names N] [--short]
mizzengrape run FILE IMAGE FILE IMAGE .. [--quantum Q] [--turns] [--allowance N]

Runs a routine and says how it ended, which values and cells it changed. At a
stop the blocks that the statement is about are drawn. IMAGE says what the
routine is lent:

    first at 1 = { 11, 12, 0 };   an object, its first cell, its contents
                                  (a string, \"Wanda\", gives one cell a byte)
    row = first + 2;              a pointer: an object and cells
    rows = 1;                     an integer
    memory 20;  allowance 1000;   the cells in all; the steps at most

Objects without `at` touch, the first at cell 1; what is not given is 0.

Several routines, 1 to 8, each with its image, run in turn over one memory: the
objects of an image lie behind those of the images before, the first touching
the last, unless `at` gives them a place. They may touch, not overlap. The
memory is the greatest that an image gives.

    --quantum Q     the steps of a turn, 1 to 1000, by default 1
    --turns         lists the turns: their steps, what they changed
    --allowance N   the steps at most, 0 to 4294967295, whatever the image says;
                    in turn of all together, by default what the images say
    --facts F       the list of loop facts of a table, as words in a file
    --names N       the names file of a table, which asm wrote
    --short         the outcome, the values and the cells as in the vectors
",
    flags: &["--short", "--turns"],
    options: &["--allowance", "--facts", "--names", "--quantum"],
    least_files: 2,
    most_files: usize::MAX,
};

pub fn run(arguments: &Arguments) -> Result<Output, String> {
    let is_alone = arguments.files.len() == 2 && arguments.option("--quantum").is_none();
    if !is_alone || arguments.flag("--turns") {
        return in_turn(arguments);
    }
    read(arguments)?.map_or_else(Ok, |session| whole(&session))
}

/// A run or a trace of a program that is in memory already.
pub fn run_program(
    program: Program,
    path: &str,
    image: String,
    traced: bool,
    short: bool,
) -> Result<Output, String> {
    let session = open(program, path, image, Wanted { short, allowance: None })?;
    session.map_or_else(Ok, |session| if traced { traced_whole(&session) } else { whole(&session) })
}

pub fn listed(words: &[u32]) -> String {
    words.iter().map(|word| format!(" {word}")).collect()
}

/// The run as `run` prints it.
fn whole(session: &Session) -> Result<Output, String> {
    let (left, ended) = session.run(u32::MAX)?;
    let lent = &session.image.lent;
    let second = second_run((&session.program.tables, &session.program.facts), lent, &ended, &left);
    let mut output = session.ended(&ended, &left, &second.frames)?;
    if let Some(other) = second.other {
        output.at_odds(&session.program, &other);
    }
    if matches!(ended.outcome, Outcome::Refused(_)) {
        return Ok(output);
    }
    if session.short {
        output.out = format!("{ended}\nvalues:{}\ncells:{}\n", listed(&left.values), listed(&left.cells));
        return Ok(output);
    }
    output.out = told(session, lent, &left, &ended, &second.frames)?;
    Ok(output)
}

/// How a run ended and what it changed, in words.
pub fn told(
    session: &Session,
    lent: &Lent,
    left: &Lent,
    ended: &Ended,
    frames: &[Frame],
) -> Result<String, String> {
    let memory = session.memory()?;
    // While a callee runs, the call is due in the routine in which the run began.
    let waits = frames.first().filter(|_| frames.len() > 1).and_then(|first| first.due);
    let is_own = ended.routine.is_none_or(|routine| routine == session.last());
    let due = match waits {
        Some(call) => call,
        None if is_own || matches!(ended.outcome, Outcome::Done { .. }) => {
            due(&memory.printer, &ended.outcome)
        }
        None => 0,
    };
    let origins = frames.first().map(|first| &first.origins[..]);
    let end = Point { values: &left.values, cells: &left.cells, origins, due };
    let changes = changes(&memory, Point::start(lent), end);
    let nothing = if changes.is_empty() { "; nothing changed" } else { "" };
    let lines: String = changes.iter().map(|change| format!("{change}\n")).collect();
    Ok(format!("{}{nothing}\n{lines}", end_line(&ended.outcome)))
}
