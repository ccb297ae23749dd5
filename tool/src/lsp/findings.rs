//! What is found in a document, as the protocol's diagnostics.

use super::document::{Analysed, Analysis, Document};
use super::json::Json;
use super::protocol::{range, Client};
use super::text::{Position, Text};
use crate::diagnostics::{Diagnostic, Pos};
use crate::explain::{Checked, Explanation};
use crate::program::Program;
use std::ops::Range;

const ERROR: u32 = 1;
const WARNING: u32 = 2;

/// What is said where the second implementation is of another opinion.
pub const DISAGREES: &str = "the explainer disagrees with the proved verdict; please report this routine";

pub struct Finding {
    pub range: Range<Position>,
    severity: u32,
    /// The number of the refusal.
    pub number: Option<u32>,
    message: String,
    notes: Vec<(Range<Position>, String)>,
}

impl Finding {
    fn new(range: Range<Position>, severity: u32, message: impl Into<String>) -> Finding {
        Finding { range, severity, number: None, message: message.into(), notes: Vec::new() }
    }

    pub fn json(&self, uri: &str, client: &Client) -> Json {
        let mut message = self.message.clone();
        if !client.related_information {
            self.notes.iter().for_each(|(_, note)| message.push_str(&format!("\nnote: {note}")));
        }
        let mut json = Json::object([
            ("range", range(&self.range)),
            ("severity", self.severity.into()),
            ("source", "mizzengrape".into()),
            ("message", message.into()),
        ]);
        if let Some(number) = self.number {
            json = json.with("code", number.into());
        }
        if client.related_information && !self.notes.is_empty() {
            let related = |(at, note): &(Range<Position>, String)| {
                let location = Json::object([("uri", uri.into()), ("range", range(at))]);
                Json::object([("location", location), ("message", note.as_str().into())])
            };
            json = json.with("relatedInformation", Json::array(self.notes.iter().map(related)));
        }
        json
    }
}

/// All findings, in the order in which the command prints them.
pub fn findings(document: &Document) -> Vec<Finding> {
    let text = &document.text;
    match document.analysis() {
        Analysis::Wrong(errors) => errors.iter().map(|error| of_text(text, ERROR, error)).collect(),
        Analysis::Read(analysed) => {
            let Analysed { program, checked } = &**analysed;
            let warnings = program.warnings.iter().map(|warning| of_text(text, WARNING, warning));
            let start = Pos { line: 1, column: 1 };
            let error = |at: Option<Pos>, message: &str| {
                Finding::new(text.token(at.unwrap_or(start)), ERROR, message)
            };
            let found = match checked {
                Err(lack) => Some(error(program.lacking_at(), lack)),
                Ok(Checked { other: Some(other), verdict, .. }) => {
                    let both = format!("{DISAGREES}: proved {verdict}, explainer {other}");
                    Some(error(None, &both))
                }
                Ok(Checked { reason, .. }) => reason.as_ref().map(|reason| refusal(text, program, reason)),
            };
            warnings.chain(found).collect()
        }
    }
}

fn of_text(text: &Text, severity: u32, diagnostic: &Diagnostic) -> Finding {
    Finding::new(text.token(diagnostic.at), severity, diagnostic.message.as_str())
}

/// A refusal at its statement or name; a note without a place stands there too.
fn refusal(text: &Text, program: &Program, reason: &Explanation) -> Finding {
    let at = reason.at.unwrap_or(Pos { line: 1, column: 1 });
    let range = extent(text, program, at);
    let note_range = |at: Option<Pos>| at.map_or_else(|| range.clone(), |at| extent(text, program, at));
    let notes = reason.notes.iter().map(|note| (note_range(note.at), note.message.clone()));
    let notes = notes.collect();
    Finding { number: Some(reason.number), notes, ..Finding::new(range, ERROR, reason.message()) }
}

/// The statement that begins at a place, else the token there.
fn extent(text: &Text, program: &Program, at: Pos) -> Range<Position> {
    let routines = program.text.iter().flat_map(|text| &text.map.routines);
    let mut statements = routines.flat_map(|routine| routine.statements.iter().zip(&routine.ends));
    match statements.find(|(start, _)| **start == at) {
        Some((_, end)) => text.range(at, *end),
        None => text.token(at),
    }
}
