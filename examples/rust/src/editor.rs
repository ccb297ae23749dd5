//! Editing a table one top-level statement at a time, with the verdict on it each time.

use crate::{extern_c, verdict, Refusal, Verdict};

/// A store of places: a word of how many places are kept, then the places, lowest position first.
const HEADER_WORDS: usize = 1;
/// A place: its position, then what is known there, which is the library's.
const PLACE_WORDS: usize = 307;

/// The words of the longest table.
const TABLE_WORDS: usize = 7_704;

/// The room of a store of so many places, in words of 64 bits.
pub const fn store_words(places: usize) -> usize {
    HEADER_WORDS + places * PLACE_WORDS
}

/// The positions that a store keeps now, ascending.
pub fn kept(store: &[u64]) -> Vec<u64> {
    let (count, places) = store.split_first().map_or((0, &[][..]), |(count, places)| (*count, places));
    let count = usize::try_from(count).unwrap_or(usize::MAX);
    places.chunks_exact(PLACE_WORDS).take(count).map(|place| place[0]).collect()
}

/// What is done at a position: a text is one statement with its blocks, seven words a record.
#[derive(Clone, Copy, Debug, PartialEq, Eq)]
pub enum Edit<'a> {
    /// Before the statement at the position, or behind the last.
    Insert(&'a [i32]),
    Replace(&'a [i32]),
    Remove,
}

impl Edit<'_> {
    /// The header's number of it, and its text.
    fn words(&self) -> (u32, &[i32]) {
        match self {
            Edit::Insert(text) => (0, text),
            Edit::Replace(text) => (1, text),
            Edit::Remove => (2, &[]),
        }
    }
}

/// The answer of an editing call.
#[derive(Clone, Copy, Debug, PartialEq, Eq)]
pub struct Edited {
    /// The verdict on the table as it then is; where it was not taken or edited, that refusal.
    pub verdict: Verdict,
    /// The statements walked for it.
    pub walked: u32,
    /// The words of the table now.
    pub length: u32,
    /// Whether the table was taken or edited. If not, nothing is changed.
    pub is_made: bool,
}

fn edited([number, place, pointer, walked, length, is_made]: [u32; 6]) -> Edited {
    Edited { verdict: verdict([number, place, pointer]), walked, length, is_made: is_made == 1 }
}

/// Takes the table of `length` words at the beginning of a buffer, to be edited there; keeps what is known at these positions in the lent store.
pub fn edit_start(buffer: &[i32], length: usize, store: &mut [u64], keep: &[u32]) -> Edited {
    edited(extern_c::edit_start_words(buffer, length, store, keep))
}

/// Edits the table in a buffer. Between the calls nobody else may write buffer or store, else the verdict says nothing. An operation other
/// than 0 insert, 1 replace and 2 remove is refused with 18.
pub fn edit(
    buffer: &mut [i32],
    operation: u32,
    position: u32,
    text: &[i32],
    store: &mut [u64],
    keep: &[u32],
) -> Edited {
    edited(extern_c::edit_words(buffer, operation, position, text, store, keep))
}

/// The verdict on the table as it is now, and the statements walked for it.
#[derive(Clone, Copy, Debug, PartialEq, Eq)]
pub struct Walked {
    pub verdict: Verdict,
    pub statements: u32,
}

/// A table that is edited, with a buffer and a store of its own, which nobody else writes: the verdict always equals a check of the table from
/// nothing.
#[derive(Clone, Debug)]
pub struct Editor {
    buffer: Vec<i32>,
    length: usize,
    store: Vec<u64>,
}

impl Editor {
    /// Takes a table that passes refusals 1 to 6, else that refusal. The store has so many places.
    pub fn start(table: &[i32], places: usize, keep: &[u32]) -> Result<(Editor, Walked), Refusal> {
        let mut buffer = table.to_vec();
        buffer.resize(table.len().max(TABLE_WORDS), 0);
        let mut editor = Editor { buffer, length: table.len(), store: vec![0; store_words(places)] };
        let answer = edit_start(&editor.buffer, editor.length, &mut editor.store, keep);
        let walked = editor.walked(answer)?;
        Ok((editor, walked))
    }

    /// Edits at a position; where that is refused (18; 5 or 6 for a text), nothing is changed. An edit whose verdict is a refusal is made.
    pub fn edit(&mut self, change: Edit, position: u32, keep: &[u32]) -> Result<Walked, Refusal> {
        let (operation, text) = change.words();
        let answer = edit(&mut self.buffer, operation, position, text, &mut self.store, keep);
        self.walked(answer)
    }

    fn walked(&mut self, answer: Edited) -> Result<Walked, Refusal> {
        match answer {
            Edited { is_made: false, verdict: Verdict::Refused(refusal), .. } => Err(refusal),
            Edited { verdict, walked: statements, length, .. } => {
                self.length = length as usize;
                Ok(Walked { verdict, statements })
            }
        }
    }

    pub fn table(&self) -> &[i32] {
        &self.buffer[..self.length]
    }

    /// The positions that are kept now, ascending.
    pub fn kept(&self) -> Vec<u64> {
        kept(&self.store)
    }
}
