//! Edits of a table with the verdict alongside (point 13), as the boundary answers them.

use oracle::answer::{CheckAnswer, Refusal};
use oracle::editor::{Edit, Editor, Walked};

/// A table in its buffer, a store of so many places, and what is done to it.
#[derive(Clone, Debug, Default, PartialEq, Eq)]
pub struct EditCase {
    pub buffer: Vec<i32>,
    /// The words of the table.
    pub length: usize,
    pub places: usize,
    /// The positions to keep with the start.
    pub keep: Vec<u32>,
    pub edits: Vec<Written>,
}

/// An edit, with the positions to keep.
#[derive(Clone, Debug, Default, PartialEq, Eq)]
pub struct Written {
    pub operation: u32,
    pub position: u32,
    pub text: Vec<i32>,
    pub keep: Vec<u32>,
}

impl Written {
    pub fn edit(&self) -> Edit<'_> {
        Edit { operation: self.operation, position: self.position, text: &self.text }
    }
}

/// Number, place and pointer of the verdict, or of the refusal of an edit that was not made; statements walked; words of
/// the table; 1 where it was taken or edited.
pub type EditWords = [u32; 6];

/// The answer of a start or an edit; the positions stored and the buffer then.
#[derive(Clone, Debug, PartialEq, Eq)]
pub struct EditAnswer {
    pub words: EditWords,
    pub stored: Vec<u32>,
    pub buffer: Vec<i32>,
}

/// The answers of the start and of each edit, none behind a start that is refused.
pub type Edited = Vec<EditAnswer>;

fn verdict_words(verdict: &CheckAnswer) -> [u32; 3] {
    let words =
        |refusal: &Refusal| [refusal.cause.into(), refusal.place, refusal.pointer.map_or(0, u32::from)];
    verdict.as_ref().err().map_or([0; 3], words)
}

/// The words of a start or an edit that left a table of this length.
pub fn edit_words(answer: Result<Walked, Refusal>, length: usize) -> EditWords {
    let (verdict, count, edited) = match answer {
        Ok(walked) => (walked.verdict, walked.count, 1),
        Err(refusal) => (Err(refusal), 0, 0),
    };
    let [number, place, pointer] = verdict_words(&verdict);
    [number, place, pointer, count as u32, length as u32, edited]
}

/// The answers of the plain form.
pub fn plain(case: &EditCase) -> Edited {
    let started = Editor::start(case.buffer.clone(), case.length, case.places, &case.keep);
    let (mut editor, walked) = match started {
        Err(refusal) => {
            let words = edit_words(Err(refusal), case.length.min(case.buffer.len()));
            return vec![EditAnswer { words, stored: Vec::new(), buffer: case.buffer.clone() }];
        }
        Ok(started) => started,
    };
    let answer = |editor: &Editor, answer: Result<Walked, Refusal>| {
        let stored = editor.stored.iter().map(|&position| position as u32).collect();
        EditAnswer { words: edit_words(answer, editor.length), stored, buffer: editor.buffer.clone() }
    };
    let mut answers = vec![answer(&editor, Ok(walked))];
    for written in &case.edits {
        let walked = editor.edit(written.edit(), &written.keep);
        answers.push(answer(&editor, walked));
    }
    answers
}
