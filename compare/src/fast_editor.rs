//! The editor's service in its fast form: it keeps what is known at its places and goes on from there.

use crate::edits::{edit_words, EditAnswer, EditCase, Edited, Written};
use crate::fast_bounds::InForce;
use crate::fast_check::Resumed;
use crate::fast_facts::FastFacts;
use oracle::answer::Refusal;
use oracle::editor::{Walked, INSERT, REMOVE, REPLACE};
use oracle::statements::text_refusal;
use oracle::table::{decode, Routine, MAX_STATEMENTS, STATEMENT_WORDS};

/// What is known before a top-level statement.
#[derive(Clone, Copy)]
struct Place {
    position: usize,
    facts: FastFacts,
    in_force: InForce,
}

struct FastEditor {
    buffer: Vec<i32>,
    length: usize,
    room: usize,
    /// In the order of their positions.
    places: Vec<Place>,
}

/// The answers of the fast form.
pub fn edits(case: &EditCase) -> Edited {
    let length = case.length.min(case.buffer.len());
    let mut editor =
        FastEditor { buffer: case.buffer.clone(), length, room: case.places, places: Vec::new() };
    let started = decode(&editor.buffer[..length]).map(|routine| editor.walk(&routine, &case.keep));
    let is_taken = started.is_ok();
    let mut answers = vec![editor.answer(started)];
    for written in case.edits.iter().filter(|_| is_taken) {
        let walked = editor.edit(written);
        answers.push(editor.answer(walked));
    }
    answers
}

impl FastEditor {
    fn answer(&self, answer: Result<Walked, Refusal>) -> EditAnswer {
        let stored = self.places.iter().map(|place| place.position as u32).collect();
        EditAnswer { words: edit_words(answer, self.length), stored, buffer: self.buffer.clone() }
    }

    fn edit(&mut self, written: &Written) -> Result<Walked, Refusal> {
        let refused = |cause: u8| Refusal { cause, place: written.position, pointer: None };
        let routine = decode(&self.buffer[..self.length]).expect("no edit breaks 1 to 6");
        let position = written.position as usize;
        let old = match (written.operation, size_at(&routine, position)) {
            (INSERT, Some(_)) => 0,
            (REPLACE | REMOVE, Some(size)) if size > 0 => size,
            _ => return Err(refused(18)),
        };
        let text = if written.operation == REMOVE { &[][..] } else { &written.text };
        let old_words = old * STATEMENT_WORDS;
        let section = routine.statements.len() * STATEMENT_WORDS - old_words + text.len();
        let length = self.length - old_words + text.len();
        if section > MAX_STATEMENTS * STATEMENT_WORDS || length > self.buffer.len() {
            return Err(refused(18));
        }
        if written.operation != REMOVE {
            text_refusal(&routine, text).map_or(Ok(()), |cause| Err(refused(cause)))?;
        }
        self.write(position, old_words, text, section as i32);
        let kept = self.places.partition_point(|place| place.position <= position);
        self.places.truncate(kept);
        let routine = decode(&self.buffer[..self.length]).expect("no edit breaks 1 to 6");
        Ok(self.walk(&routine, &written.keep))
    }

    /// Puts the text in the place of so many words, and what is behind them after it; nothing behind the new table.
    fn write(&mut self, position: usize, old_words: usize, text: &[i32], section: i32) {
        let start = self.buffer[4] as usize + position * STATEMENT_WORDS;
        let behind = self.buffer[start + old_words..self.length].to_vec();
        let changed = text.iter().chain(&behind);
        self.buffer.iter_mut().skip(start).zip(changed).for_each(|(word, new)| *word = *new);
        self.length = start + text.len() + behind.len();
        self.buffer[5] = section;
        // The pair of the rows, which follow the statements.
        if self.buffer[0] == 8 {
            self.buffer[6] = self.buffer[4] + section;
        }
    }

    fn walk(&mut self, routine: &Routine, keep: &[u32]) -> Walked {
        let mut walk = match self.places.last() {
            Some(place) => Resumed::at(routine, place.position, place.facts, &place.in_force),
            None => Resumed::start(routine),
        };
        let verdict = loop {
            let Some(position) = walk.position() else { break Ok(()) };
            let is_new = self.places.last().is_none_or(|place| place.position < position);
            if is_new && self.places.len() < self.room && keep.contains(&(position as u32)) {
                let (facts, in_force) = walk.known();
                self.places.push(Place { position, facts, in_force });
            }
            if let Err(refusal) = walk.step() {
                break Err(refusal);
            }
        };
        Walked { verdict, count: walk.begun() }
    }
}

/// The statements of the top-level statement at a position, none behind the last; `None` where there is no such one.
fn size_at(routine: &Routine, position: usize) -> Option<usize> {
    let mut s = 0;
    while s < position {
        s += routine.statements.get(s)?.size();
    }
    (s == position).then(|| routine.statements.get(s).map_or(0, |statement| statement.size()))
}
