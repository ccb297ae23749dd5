//! What is found in a file, as data: for formats that programs read.

mod json;
mod sarif;

pub use json::json;
pub use sarif::sarif;

use crate::diagnostics::{Diagnostic, Pos};
use crate::explain::{self, Explanation, Help};
use crate::files::{read_text, shown_name, Loaded, TEXT};
use crate::library::{Refusal, Verdict};
use crate::program::Program;
use crate::repair::{edits, Edit};
use crate::tokens::{begins_name, continues_name};
use crate::words::assemble_all;

#[derive(Debug)]
pub struct Finding {
    pub file: String,
    /// From here up to there, that one not included; none for a whole file.
    pub at: Option<(Pos, Pos)>,
    /// `error` or `warning`.
    pub severity: &'static str,
    /// The refusal, where it is one.
    pub refusal: Option<Refusal>,
    pub message: String,
    pub notes: Vec<(Option<Pos>, String)>,
    pub helps: Vec<(String, Vec<Edit>)>,
}

/// The findings of a file, and the verdict where there is one.
#[derive(Debug)]
pub struct Found {
    pub findings: Vec<Finding>,
    pub verdict: Option<Verdict>,
    /// Whether the second implementation says something else.
    pub is_at_odds: bool,
}

/// Examines a file by its ending; one that cannot be read is an error.
pub fn examine(path: &str, facts: Option<&str>) -> Loaded<Found> {
    if path.ends_with(".tbl") || path.ends_with(".words") {
        return Ok(of_program(&Program::load(&[path.to_string()], facts, true)?));
    }
    if facts.is_some() {
        return Err("error: the loop facts of a text stand in it\n".to_string());
    }
    let (name, source) = (shown_name(path), read_text(path, &TEXT, true)?);
    Ok(match assemble_all(&source) {
        Ok(assembly) => of_program(&Program::of_assembly(name, source, assembly)),
        Err(errors) => {
            let findings = errors.iter().map(|wrong| of_text(&name, &source, "error", wrong)).collect();
            Found { findings, verdict: None, is_at_odds: false }
        }
    })
}

/// The findings of a program that is in memory already.
pub fn of_program(program: &Program) -> Found {
    let source = program.text.as_ref().map_or("", |text| &text.source);
    let warnings = program.warnings.iter().map(|warning| of_text(&program.name, source, "warning", warning));
    let mut findings: Vec<Finding> = warnings.collect();
    let whole = |message: String| Finding {
        file: program.name.clone(),
        at: None,
        severity: "error",
        refusal: None,
        message,
        notes: Vec::new(),
        helps: Vec::new(),
    };
    let (mut verdict, mut is_at_odds) = (None, false);
    match explain::check(program) {
        Err(lack) => findings.push(whole(lack.to_string())),
        Ok(checked) => {
            if let Some(other) = checked.other {
                is_at_odds = true;
                findings.push(whole(format!("the explainer disagrees with the proved verdict: {other}")));
            }
            if let (Some(reason), Verdict::Refused(refusal)) = (checked.reason, &checked.verdict) {
                findings.push(of_refusal(program, refusal, reason));
            }
            verdict = Some(checked.verdict);
        }
    }
    Found { findings, verdict, is_at_odds }
}

fn of_text(file: &str, source: &str, severity: &'static str, wrong: &Diagnostic) -> Finding {
    Finding {
        file: file.to_string(),
        at: Some((wrong.at, token_end(source, wrong.at))),
        severity,
        refusal: None,
        message: wrong.message.clone(),
        notes: Vec::new(),
        helps: Vec::new(),
    }
}

/// Behind the name, or the character, at a position.
fn token_end(source: &str, at: Pos) -> Pos {
    let line = source.split('\n').nth(at.line as usize - 1).unwrap_or("");
    let mut rest = line.chars().skip(at.column as usize - 1);
    let letters = match rest.next() {
        Some(first) if begins_name(first) || first.is_ascii_digit() => {
            1 + rest.take_while(|c| continues_name(*c)).count()
        }
        _ => 1,
    };
    Pos { column: at.column + letters as u32, ..at }
}

fn of_refusal(program: &Program, refusal: &Refusal, reason: Explanation) -> Finding {
    let text = program.text.as_ref();
    let map = text.and_then(|text| text.map.routines.get(refusal.routine.unwrap_or(0)));
    let end = |at: Pos| {
        let statement = map.and_then(|map| map.statements.iter().position(|start| *start == at));
        let end = statement.and_then(|number| map?.ends.get(number).copied());
        end.unwrap_or_else(|| token_end(text.map_or("", |text| &text.source), at))
    };
    let changes = |help: Help| {
        let repair = help.repair.as_ref().zip(text).zip(map);
        let edits = repair.and_then(|((repair, text), map)| edits(repair, &text.source, map));
        // A table is no text that could be changed.
        (help.message, edits.filter(|_| !program.of_words).unwrap_or_default())
    };
    Finding {
        file: program.name.clone(),
        at: reason.at.map(|at| (at, end(at))),
        severity: "error",
        refusal: Some(*refusal),
        message: reason.message(),
        notes: reason.notes.into_iter().map(|note| (note.at, note.message)).collect(),
        helps: explain::help(program, refusal).into_iter().map(changes).collect(),
    }
}
