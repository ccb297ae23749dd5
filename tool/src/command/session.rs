//! A routine with what it is lent, ready to run: how runs and traces begin and how they end.

use super::arguments::Arguments;
use super::{Output, DONE, REFUSED, SPENT, STOPPED};
use crate::diagnostics::{Pos, Source};
use crate::explain::drawing::{drawing, Scene};
use crate::explain::{self, bundle, stops, Place};
use crate::files::{read_text, IMAGE};
use crate::image::{read_image, Image};
use crate::library::{self, Ended, Lent, Outcome, Refusal};
use crate::memory::{Memory, Neighbour};
use crate::names::read_names;
use crate::printer::Printer;
use crate::program::{Program, Text};
use oracle::frame::Frame;

pub struct Session {
    pub program: Program,
    pub image_path: String,
    pub image_text: String,
    pub image: Image,
    /// The objects of the routines that run in turn with this one.
    pub others: Vec<Neighbour>,
    pub short: bool,
}

/// How a run is asked for and shown.
#[derive(Clone, Copy)]
pub struct Wanted {
    pub short: bool,
    pub allowance: Option<u32>,
}

/// The session that the arguments name, or what ends the call before a run.
pub fn read(arguments: &Arguments) -> Result<Result<Session, Output>, String> {
    let short = arguments.is_short();
    let mut program = Program::load(&arguments.files[..1], arguments.option("--facts"), short)?;
    if let Some(path) = arguments.option("--names") {
        program = program.renamed(&read_names(path, short)?)?;
    }
    let image = read_text(&arguments.files[1], &IMAGE, short)?;
    open(program, &arguments.files[1], image, Wanted { short, allowance: arguments.number("--allowance")? })
}

/// A session, or what ends the call before a run: the routine is refused.
pub fn open(
    program: Program,
    path: &str,
    image_text: String,
    wanted: Wanted,
) -> Result<Result<Session, Output>, String> {
    let checked = super::check::verdict(&program, wanted.short)?;
    if checked.status != DONE {
        return Ok(Err(checked));
    }
    let (image_path, text) = (path.to_string(), text_of(&program)?);
    let source = Source { name: path, text: &image_text };
    let read = read_image(&image_text, &text.parts, &text.names);
    let mut image = read.map_err(|wrong| source.error(&wrong, wanted.short))?;
    image.lent.allowance = wanted.allowance.unwrap_or(image.lent.allowance);
    Ok(Ok(Session { program, image_path, image_text, image, others: Vec::new(), short: wanted.short }))
}

fn text_of(program: &Program) -> Result<&Text, String> {
    program.text.as_ref().ok_or(format!("{}: error: this table has no text\n", program.name))
}

/// `done after 5 steps`.
pub fn end_line(outcome: &Outcome) -> String {
    let how = match outcome {
        Outcome::Done { .. } => "done",
        Outcome::Spent { .. } => "spent",
        Outcome::Stopped { .. } => "stopped",
        Outcome::Refused(_) => "refused",
    };
    let steps = library::steps(outcome);
    format!("{how} after {steps} {}", if steps == 1 { "step" } else { "steps" })
}

impl Session {
    /// The proved run with so many steps at most, or with the image's allowance.
    pub fn run(&self, steps: u32) -> Result<(Lent, Ended), String> {
        let mut lent = self.image.lent.clone();
        lent.allowance = lent.allowance.min(steps);
        let asked = library::run(&self.program.tables, &self.program.facts, &mut lent);
        let ended = asked.map_err(|lack| self.program.lacking(lack, self.short))?;
        Ok((lent, ended))
    }

    pub fn text(&self) -> Result<&Text, String> {
        text_of(&self.program)
    }

    /// The routine in which a run begins.
    pub fn last(&self) -> usize {
        self.program.tables.len() - 1
    }

    fn printer(&self, routine: usize) -> Result<Printer<'_>, String> {
        let text = self.text()?;
        Ok(Printer::new(&text.parts, &self.program.facts, &text.names, routine))
    }

    /// The memory as the routine in which the run begins sees it.
    pub fn memory(&self) -> Result<Memory<'_>, String> {
        self.memory_of(self.last())
    }

    /// The memory as a routine sees it.
    pub fn memory_of(&self, routine: usize) -> Result<Memory<'_>, String> {
        Ok(Memory::new(self.printer(routine)?, self.text()?, &self.image.lent.directory, &self.others))
    }

    /// Where a statement of the routine in which the run begins stands.
    pub fn position(&self, statement: usize) -> Result<Pos, String> {
        self.position_in(self.last(), statement)
    }

    pub fn position_in(&self, routine: usize, statement: usize) -> Result<Pos, String> {
        let routine = self.text()?.map.routines.get(routine);
        let position = routine.and_then(|map| map.statements.get(statement));
        position.copied().ok_or(format!("{}: error: no statement {statement}\n", self.program.name))
    }

    /// The sentence of the end at its line, and the status. Where the second implementation tells what each routine at work had then, the
    /// blocks of a stop are drawn, and callers are named.
    pub fn ended(&self, ended: &Ended, lent: &Lent, frames: &[Frame]) -> Result<Output, String> {
        let short = self.short;
        let mut output = Output { err: self.program.warnings(short), ..Output::default() };
        let routine = ended.routine.unwrap_or(self.last());
        // The library gives back the values of the routine in which the run began; those of a callee are the second implementation's.
        let values = match frames {
            [_, .., running] if running.routine == routine => Some(&running.values[..]),
            _ => Some(&lent.values[..]).filter(|_| routine == self.last()),
        };
        let (statement, sentence) = match ended.outcome {
            Outcome::Done { .. } => return Ok(output),
            Outcome::Refused(refusal) => {
                let explanation = explain::refused_entry(self.text()?, &self.image, &Refusal::from(refusal));
                let source = Source { name: &self.image_path, text: &self.image_text };
                output.err.push_str(&explanation.show_in(&self.image_path, Some(source), short));
                output.out = format!("{ended}\n");
                output.status = REFUSED;
                return Ok(output);
            }
            Outcome::Spent { statement, .. } => {
                let line = self.position_in(routine, statement as usize)?.line;
                let allowance = self.image.lent.allowance;
                output.status = SPENT;
                let sentence =
                    format!("spent: the allowance of {allowance} steps is used; line {line} is next");
                (statement as usize, sentence)
            }
            Outcome::Stopped { statement, check, .. } => {
                let statement = statement as usize;
                output.status = STOPPED;
                let printer = self.printer(routine)?;
                let reason = values.map_or_else(
                    || printer.statement(statement),
                    |values| stops::sentence(&printer, statement, check, values),
                );
                (statement, format!("stopped at check {}: {reason}", check.number()))
            }
        };
        if let Some(source) = self.program.source() {
            output.err.push_str(&source.show(self.position_in(routine, statement)?, &sentence, short));
        }
        if let (Some(running), Some(values), false) = (frames.last(), values, short) {
            let (origins, cells) = (&running.origins[..], &lent.cells[..]);
            let scene = Scene { memory: self.memory_of(routine)?, statement, values, origins, cells };
            let is_stop = matches!(ended.outcome, Outcome::Stopped { .. });
            let drawn = if is_stop { drawing(&scene) } else { Vec::new() };
            drawn.iter().for_each(|line| output.err.push_str(&format!("{}\n", line.trim_end())));
            let place = Place::new(&self.program, self.text()?, routine);
            let note = place.and_then(|place| bundle::note(&place, &scene));
            output.err.extend(note.map(|note| format!("note: {note}\n")));
            output.err.push_str(&self.callers(frames)?);
        }
        Ok(output)
    }

    /// `FILE:14:5: note: called here, in score: r = handicap(t, h)`, the innermost call first.
    fn callers(&self, frames: &[Frame]) -> Result<String, String> {
        let callers = frames.iter().rev().skip(1);
        let mut notes = String::new();
        for (caller, call) in callers.filter_map(|frame| Some((frame.routine, frame.due?))) {
            let (at, name) = (self.position_in(caller, call)?, &self.program.name);
            let (printer, routine) = (self.printer(caller)?, &self.text()?.names.routines[caller].name);
            notes.push_str(&format!(
                "{name}:{at}: note: called here, in {routine}: {}\n",
                printer.statement(call)
            ));
        }
        Ok(notes)
    }
}
