//! Loop facts that the library takes, written at the loops of a text: offered on a loop's line, made only when they are asked for, since that
//! takes many checks.

use super::document::{Analysis, Document};
use super::text::Position;
use crate::command::fact_edits;
use crate::library::Verdict;
use crate::program::Program;
use crate::propose::propose;
use std::ops::Range;

pub const TITLE: &str = "write loop facts that the library takes";

/// Whether one of these lines is that of a loop.
pub fn is_offered(document: &Document, lines: &Range<Position>) -> bool {
    let [from, to] = [lines.start, lines.end].map(|at| document.text.place(at).line);
    let is_there = |program: &Program| {
        let map = program.text.as_ref()?.map.routines.first()?;
        let mut heads = map.loops.iter().filter_map(|(head, _)| map.statements.get(*head));
        Some(heads.any(|at| (from..=to).contains(&at.line)))
    };
    reads(document).and_then(is_there).unwrap_or(false)
}

/// The edits that write them; none where no list makes an access safe or repairs anything.
pub fn edits(document: &Document) -> Option<Vec<(Range<Position>, String)>> {
    let program = reads(document)?;
    let text = program.text.as_ref()?;
    let proposal = propose(&text.parts[0], &program.facts);
    if proposal.facts == program.facts {
        return None;
    }
    let place = |at| document.text.position(at);
    let edits = fact_edits(text, &proposal.facts)?.into_iter();
    Some(edits.map(|edit| (place(edit.from)..place(edit.to), edit.text)).collect())
}

/// The only routine of a document, where its form is right.
fn reads(document: &Document) -> Option<&Program> {
    let Analysis::Read(analysed) = document.analysis() else { return None };
    let verdict = analysed.checked.as_ref().ok()?.verdict;
    let is_formed = !matches!(verdict, Verdict::Refused(refusal) if refusal.number <= 6);
    Some(&analysed.program).filter(|program| is_formed && program.tables.len() == 1)
}
