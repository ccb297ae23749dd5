//! The command `mizzengrape`: its subcommands, what they print, how they end.

mod arguments;
mod asm;
mod changes;
mod check;
mod color;
mod dis;
mod explain;
mod facts;
mod header;
mod in_turn;
mod lsp;
mod pages;
mod run;
mod session;
mod trace;
mod turns;

use crate::diagnostics::without_controls;
use crate::program::Program;
use arguments::{Arguments, Usage};
pub use check::verdict;
use color::{colored, Color};
pub use dis::formatted;
pub use facts::fact_edits;
pub use in_turn::{run_in_turn, Asked, Given};
pub use run::run_program;
use std::io::{self, Write};

/// What a call prints and its exit status.
#[derive(Debug, Default, PartialEq, Eq)]
pub struct Output {
    /// Standard error; it is printed first.
    pub err: String,
    pub out: String,
    /// Standard error too, printed last: how a listing ended.
    pub end: String,
    pub status: u8,
    /// Whether what is said is coloured.
    pub color: Color,
}

/// Exit statuses.
pub const DONE: u8 = 0;
pub const REFUSED: u8 = 1;
pub const WRONG: u8 = 2;
pub const STOPPED: u8 = 3;
pub const SPENT: u8 = 4;
pub const DIFFER: u8 = 5;

impl Output {
    pub fn wrong(message: String) -> Output {
        Output { err: message, status: WRONG, ..Output::default() }
    }

    /// As it is said where standard error is a terminal, or is none.
    pub fn shown(mut self, is_terminal: bool) -> Output {
        if self.color.is_wanted(is_terminal) {
            for said in [&mut self.err, &mut self.end] {
                *said = colored(said);
            }
        }
        self
    }

    /// Prints it, and gives the exit status: what cannot be printed is an error.
    pub fn print(&self, out: &mut impl Write, err: &mut impl Write) -> u8 {
        let mut is_lost = written(err, &self.err).is_err();
        if let Err(error) = written(out, &self.out) {
            is_lost = true;
            let _ = writeln!(err, "error: standard output: {error}");
        }
        is_lost |= written(err, &self.end).is_err();
        if is_lost {
            WRONG
        } else {
            self.status
        }
    }

    /// Two implementations that differ: said loudly, whatever was asked. The proved answer stays what is printed.
    fn at_odds(&mut self, program: &Program, other: &str) {
        let message = "error: the explainer disagrees with the proved verdict; please report this routine";
        self.err.push_str(&format!("{}: {message}\nnote: the explainer says: {other}\n", program.name));
        self.status = DIFFER;
    }

    fn help(text: &str) -> Output {
        Output { out: text.to_string(), ..Output::default() }
    }
}

/// A reader that has gone away is no fault of the call.
fn written(stream: &mut impl Write, text: &str) -> io::Result<()> {
    let written = stream.write_all(text.as_bytes()).and_then(|()| stream.flush());
    written.or_else(|error| if error.kind() == io::ErrorKind::BrokenPipe { Ok(()) } else { Err(error) })
}

const HELP: &str = "\
mizzengrape: routines for late entries and scoring, in Checked C

    mizzengrape check FILE            the verdict, with the reason for a refusal
    mizzengrape asm FILE.c            a text as a table
    mizzengrape dis FILE.tbl          a table as text
    mizzengrape fmt FILE.c            a text in its canonical form
    mizzengrape run FILE IMAGE ..     a run: how it ended, what it changed;
                                      of several routines in turn
    mizzengrape trace FILE IMAGE      a run step by step
    mizzengrape explain NUMBER        what a refusal means and what repairs it
    mizzengrape explain stop NUMBER   the same of a stop
    mizzengrape explain FILE [LINE]   what is known before a line
    mizzengrape facts FILE.c          a text with loop facts that make it safe
    mizzengrape lsp                   a language server for editors
    mizzengrape man                   all of this as a manual page
    mizzengrape completion            a script that completes it in bash

A FILE ending in .tbl is a table, .words a table in decimal words, all others
are texts; - is standard input. `mizzengrape COMMAND --help` says more. Every
command takes --color auto, always or never; NO_COLOR is never.

Exit status: 0 accepted or done, 1 refused, 2 the text, the file or the call
is wrong, 3 stopped, 4 spent, 5 the two implementations differ.
";

/// How a command answers: when all is done, or line by line to standard output as it goes on.
enum Call {
    AtOnce(fn(&Arguments) -> Result<Output, String>),
    AsItGoes(fn(&Arguments, &mut dyn Write) -> Result<Output, String>),
}

/// Each command with its usage.
const COMMANDS: [(&str, &Usage, Call); 11] = [
    ("check", &check::USAGE, Call::AtOnce(check::check)),
    ("asm", &asm::USAGE, Call::AsItGoes(asm::asm)),
    ("dis", &dis::DIS_USAGE, Call::AtOnce(dis::dis)),
    ("fmt", &dis::FMT_USAGE, Call::AtOnce(dis::fmt)),
    ("run", &run::USAGE, Call::AtOnce(run::run)),
    ("trace", &trace::USAGE, Call::AsItGoes(trace::trace)),
    ("explain", &explain::USAGE, Call::AtOnce(explain::explain)),
    ("facts", &facts::USAGE, Call::AtOnce(facts::facts)),
    ("lsp", &lsp::USAGE, Call::AsItGoes(lsp::lsp)),
    ("man", &pages::MAN_USAGE, Call::AtOnce(pages::man)),
    ("completion", &pages::COMPLETION_USAGE, Call::AtOnce(pages::completion)),
];

/// The command with these arguments, all that it prints kept.
pub fn call(arguments: &[String]) -> Output {
    let mut lines = Vec::new();
    let mut output = call_into(arguments, &mut lines);
    output.out.insert_str(0, &String::from_utf8_lossy(&lines));
    output
}

/// The command with these arguments; a listing is written as it goes on. What is said of a text or a file is no more than text.
pub fn call_into(arguments: &[String], out: &mut dyn Write) -> Output {
    let (arguments, color) = match Color::taken_from(arguments) {
        Ok(taken) => taken,
        Err(message) => return Output::wrong(format!("error: {message}\n")),
    };
    let mut output = Output { color, ..answer(&arguments, out) };
    for said in [&mut output.err, &mut output.end] {
        *said = without_controls(said);
    }
    output
}

fn answer(arguments: &[String], out: &mut dyn Write) -> Output {
    let [name, rest @ ..] = arguments else { return Output::wrong(HELP.to_string()) };
    if matches!(name.as_str(), "--help" | "-h" | "help") {
        return Output::help(HELP);
    }
    if name == "--version" {
        return Output::help(concat!("mizzengrape ", env!("CARGO_PKG_VERSION"), "\n"));
    }
    let Some((_, usage, command)) = COMMANDS.iter().find(|(command, ..)| command == name) else {
        return Output::wrong(format!("error: no command {name}; `mizzengrape --help` lists them\n"));
    };
    if rest.iter().any(|argument| argument == "--help") {
        return Output::help(usage.help);
    }
    match Arguments::read(rest, usage) {
        Err(message) => Output::wrong(format!("error: {message}; `mizzengrape {name} --help` tells more\n")),
        Ok(arguments) => match command {
            Call::AtOnce(command) => command(&arguments),
            Call::AsItGoes(command) => command(&arguments, out),
        }
        .unwrap_or_else(Output::wrong),
    }
}
