//! Quick fixes: the helps for a refusal and the repairs of errors, as edits of the text. Each is tried out on the text before it is offered.

use super::document::{Analysed, Analysis, Document};
use super::text::Position;
use crate::diagnostics::{Diagnostic, Pos};
use crate::explain::{declare_known, help, progress, Help};
use crate::library::{Refusal, Verdict};
use crate::program::Program;
use crate::repair::{apply, edits, Edit};
use crate::words::assemble_all;
use std::ops::Range;

pub struct Fix {
    /// The finding that it repairs, by its number in their list.
    pub finding: usize,
    pub title: String,
    pub edits: Vec<(Range<Position>, String)>,
    /// Whether it is what one would do: a help, after which nothing is left to repair.
    pub is_preferred: bool,
}

impl Fix {
    fn new(document: &Document, finding: usize, title: String, edits: Vec<Edit>, is_preferred: bool) -> Fix {
        let position = |at: Pos| document.text.position(at);
        let edits = edits.into_iter().map(|edit| (position(edit.from)..position(edit.to), edit.text));
        Fix { finding, title, edits: edits.collect(), is_preferred }
    }
}

/// The fixes for what is found in a document.
pub fn fixes(document: &Document) -> Vec<Fix> {
    match document.analysis() {
        Analysis::Wrong(errors) => {
            (0..errors.len()).filter_map(|number| of_error(document, errors, number)).collect()
        }
        Analysis::Read(analysed) => of_refusal(document, analysed),
    }
}

/// A word for another one, a mark that is missing, a while for a for.
fn of_error(document: &Document, errors: &[Diagnostic], number: usize) -> Option<Fix> {
    let edit = errors[number].edit.clone()?;
    let left = match assemble_all(&apply(document.text.checked(), std::slice::from_ref(&edit))?) {
        Ok(_) => 0,
        Err(left) => left.len(),
    };
    let title = match edit.text.contains('\n') {
        true => "write it as a while".to_string(),
        false => format!("write `{}`", edit.text),
    };
    (left < errors.len()).then(|| Fix::new(document, number, title, vec![edit], left == 0))
}

fn of_refusal(document: &Document, analysed: &Analysed) -> Vec<Fix> {
    let Analysed { program, checked: Ok(checked) } = analysed else { return Vec::new() };
    let (Verdict::Refused(refusal), Some(_)) = (&checked.verdict, &checked.reason) else { return Vec::new() };
    let helps = help(program, refusal).into_iter().filter_map(|help| fix(document, program, refusal, &help));
    let known = declare_known(program, refusal).and_then(|help| fix(document, program, refusal, &help));
    // No help stands for itself: it is offered where all is well with it.
    let known = known.filter(|fix| fix.is_preferred).map(|fix| Fix { is_preferred: false, ..fix });
    helps.chain(known).collect()
}

fn fix(document: &Document, program: &Program, refusal: &Refusal, help: &Help) -> Option<Fix> {
    let (repair, text) = (help.repair.as_ref()?, program.text.as_ref()?);
    let edits = edits(repair, &text.source, text.map.routines.get(refusal.routine.unwrap_or(0))?)?;
    let is_preferred = progress(program, refusal, repair, apply(&text.source, &edits)?)?;
    // The refusal is told behind the warnings.
    Some(Fix::new(document, program.warnings.len(), help.message.clone(), edits, is_preferred))
}
