//! The library's editor service for the routine of a document: the table that was checked last, and what is known at places in it. A change of
//! statements in one place is walked from the last place before it.

use super::changes::top_level;
use crate::library::{Edit, Editor, Verdict};
use crate::table::{Table, STATEMENT_WORDS};
use std::ops::Range;

/// A place is kept at each so many-th statement outside of all blocks.
const APART: usize = 16;
/// A place for each of them in the longest routine.
const PLACES: usize = 1024 / APART;

/// Each edit is a walk to the end: more of them than this cost more than one walk of the whole.
const MOST_EDITS: usize = 4;

#[derive(Default)]
pub struct Service {
    editor: Option<Editor>,
}

/// A statement outside of all blocks that goes, comes or is replaced.
type Step<'a> = (u32, Edit<'a>);

impl Service {
    /// The verdict on a table whose statements differ from those of the one before in one place: records of the old and of the new table. None
    /// where the service does not take it.
    pub fn verdict(
        &mut self,
        before: &[i32],
        (old, new): (Range<usize>, Range<usize>),
        table: &[i32],
    ) -> Option<Verdict> {
        // What does not end with its verdict leaves no table behind.
        let editor = self.editor.take().filter(|editor| editor.table() == before);
        let (before, after) = (Table::split(before).ok()?, Table::split(table).ok()?);
        let keep = positions(&after);
        let gone = top_level(&before.statements[old]).len();
        let come = top_level(&after.statements[new.clone()]);
        let steps = steps(gone, &come, new);
        let (editor, verdict) = match editor {
            Some(editor) if steps.len() <= MOST_EDITS => edited(editor, &steps, &keep)?,
            _ => Editor::start(table, PLACES, &keep)?,
        };
        if editor.table() != table {
            return None;
        }
        self.editor = Some(editor);
        Some(verdict)
    }
}

/// The positions to keep.
fn positions(table: &Table) -> Vec<u32> {
    let mut at = 0;
    let starts = top_level(&table.statements).into_iter().map(|statement| {
        at += statement.len();
        (at - statement.len()) as u32
    });
    starts.step_by(APART).collect()
}

/// The edits that put what comes in the place of so many statements; positions are those of the new table.
fn steps<'a>(gone: usize, come: &[&'a [[i32; STATEMENT_WORDS]]], place: Range<usize>) -> Vec<Step<'a>> {
    let mut at = place.start;
    let mut steps = Vec::new();
    for (number, statement) in come.iter().enumerate() {
        let text = statement.as_flattened();
        steps.push((at as u32, if number < gone { Edit::Replace(text) } else { Edit::Insert(text) }));
        at += statement.len();
    }
    steps.extend((come.len()..gone).map(|_| (place.end as u32, Edit::Remove)));
    steps
}

/// All edits, and the places of the last one; none where one is refused.
fn edited(mut editor: Editor, steps: &[Step], keep: &[u32]) -> Option<(Editor, Verdict)> {
    let (&(position, edit), others) = steps.split_last()?;
    for &(position, edit) in others {
        editor.edit(edit, position, &[])?;
    }
    let verdict = editor.edit(edit, position, keep)?;
    Some((editor, verdict))
}

#[cfg(test)]
#[path = "service_tests.rs"]
mod tests;
