//! Editing with the verdict alongside (point 13): one top-level statement with its blocks is inserted, replaced or
//! removed. Places are positions here, and each verdict is that of a check from nothing: what the paper says an editor
//! service has to equal.

use crate::answer::{CheckAnswer, Refusal};
use crate::checker::{watch, Known, Observer, Rows};
use crate::draft::{to_records, Draft};
use crate::facts::Facts;
use crate::statements::text_refusal;
use crate::table::{decode, Routine, MAX_STATEMENTS, STATEMENT_WORDS};
use std::collections::BTreeSet;
use std::ops::Range;

/// The three edits; any other number answers as 18.
pub const INSERT: u32 = 0;
pub const REPLACE: u32 = 1;
pub const REMOVE: u32 = 2;

#[derive(Clone, Copy, Debug)]
pub struct Edit<'a> {
    pub operation: u32,
    /// A statement's number in the table.
    pub position: u32,
    /// Ignored by a removal.
    pub text: &'a [i32],
}

/// A verdict, and the statements walked for it.
#[derive(Clone, Copy, Debug, PartialEq, Eq)]
pub struct Walked {
    pub verdict: CheckAnswer,
    pub count: usize,
}

#[derive(Clone, Debug)]
pub struct Editor {
    /// The table's buffer; the words behind the table are the caller's.
    pub buffer: Vec<i32>,
    /// The words of the table.
    pub length: usize,
    /// How many places the store has.
    places: usize,
    /// The positions stored, in order.
    pub stored: BTreeSet<usize>,
}

impl Editor {
    /// "It starts from a routine that passes 1 to 6 (else that refusal)"; a length beyond the buffer counts as the
    /// buffer's.
    pub fn start(
        buffer: Vec<i32>,
        length: usize,
        places: usize,
        keep: &[u32],
    ) -> Result<(Editor, Walked), Refusal> {
        let length = length.min(buffer.len());
        decode(&buffer[..length])?;
        let mut editor = Editor { buffer, length, places, stored: BTreeSet::new() };
        let walked = editor.walk(0, keep);
        Ok((editor, walked))
    }

    pub fn table(&self) -> &[i32] {
        &self.buffer[..self.length]
    }

    fn routine(&self) -> Routine {
        decode(self.table()).expect("no edit breaks 1 to 6")
    }

    /// An edit; where it is refused, "Table, store and verdict then stay".
    pub fn edit(&mut self, edit: Edit, keep: &[u32]) -> Result<Walked, Refusal> {
        let changed = self.changed(edit)?;
        self.buffer[..changed.len()].copy_from_slice(&changed);
        self.length = changed.len();
        // "an edit drops those behind it"
        self.stored.split_off(&(edit.position as usize + 1));
        let start = self.stored.last().copied().unwrap_or(0);
        Ok(self.walk(start, keep))
    }

    /// The table with the edit, or its refusal, which always gives the position.
    fn changed(&self, edit: Edit) -> Result<Vec<i32>, Refusal> {
        let Edit { operation, position, text } = edit;
        let refused = |cause: u8| Refusal { cause, place: position, pointer: None };
        let routine = self.routine();
        let old = replaced(&routine, operation, position as usize).ok_or(refused(18))?;
        let new = if operation == REMOVE { &[] } else { text };
        // The words of the text as they are; what is replaced makes room.
        let kept = routine.statements.len() - old.len();
        let too_many = kept * STATEMENT_WORDS + new.len() > MAX_STATEMENTS * STATEMENT_WORDS;
        let too_long = self.length - old.len() * STATEMENT_WORDS + new.len() > self.buffer.len();
        if too_many || too_long {
            return Err(refused(18));
        }
        if operation != REMOVE {
            text_refusal(&routine, new).map_or(Ok(()), |cause| Err(refused(cause)))?;
        }
        let mut draft = Draft::from_words(self.table()).expect("a right directory");
        draft.statements.splice(old, to_records(new));
        Ok(draft.words())
    }

    /// The walk from a position on, and the places that it stores: "each that fits is stored when the walk passes it,
    /// lowest first".
    fn walk(&mut self, start: usize, keep: &[u32]) -> Walked {
        let routine = self.routine();
        let keep = keep.iter().map(|&position| position as usize).collect();
        let mut passed = Passed { start, tops: tops(&routine), keep, editor: self, count: 0 };
        let verdict = watch(&routine, &mut passed).map(|_| ());
        Walked { verdict, count: passed.count }
    }
}

/// The positions of the top-level statements.
fn tops(routine: &Routine) -> BTreeSet<usize> {
    let mut tops = BTreeSet::new();
    let mut s = 0;
    while s < routine.statements.len() {
        tops.insert(s);
        s += routine.statements[s].size();
    }
    tops
}

/// The statements that an edit takes out, none for an insertion; `None` where the position "names no top-level statement
/// (an insertion may follow the last)".
fn replaced(routine: &Routine, operation: u32, position: usize) -> Option<Range<usize>> {
    let is_top = tops(routine).contains(&position);
    let is_end = position == routine.statements.len();
    match operation {
        INSERT if is_top || is_end => Some(position..position),
        REPLACE | REMOVE if is_top => Some(position..position + routine.statements[position].size()),
        _ => None,
    }
}

struct Passed<'a> {
    start: usize,
    tops: BTreeSet<usize>,
    keep: BTreeSet<usize>,
    editor: &'a mut Editor,
    count: usize,
}

impl Observer for Passed<'_> {
    /// Statements before the start are as they were when its place was stored.
    fn before(&mut self, statement: usize, _: &Facts, _: &Rows, _: &Known) {
        if statement < self.start {
            return;
        }
        self.count += 1;
        let Editor { stored, places, .. } = &mut *self.editor;
        let is_wanted = self.keep.contains(&statement) && self.tops.contains(&statement);
        if is_wanted && stored.len() < *places {
            stored.insert(statement);
        }
    }
}

#[cfg(test)]
#[path = "editor_tests.rs"]
mod tests;
