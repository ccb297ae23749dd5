//! The proved editor's service behind the seam, on lent slices with words around them that it may not write.

use crate::edits::{EditAnswer, EditCase, EditWords, Edited, Written};
use crate::linked::verdict_words;

const AROUND: usize = 8;

/// A slice that is lent, with words before and behind it.
#[derive(Clone, Debug)]
struct Guarded<T> {
    words: Vec<T>,
    guard: T,
}

impl<T: Copy + PartialEq> Guarded<T> {
    fn new(content: &[T], guard: T) -> Guarded<T> {
        let around = [guard; AROUND];
        Guarded { words: [&around[..], content, &around].concat(), guard }
    }

    fn content(&mut self) -> &mut [T] {
        let end = self.words.len() - AROUND;
        &mut self.words[AROUND..end]
    }

    fn is_whole(&self) -> bool {
        let (before, behind) = (&self.words[..AROUND], &self.words[self.words.len() - AROUND..]);
        before.iter().chain(behind).all(|word| *word == self.guard)
    }
}

/// What an editor's service is lent.
#[derive(Clone, Debug)]
pub struct Lent {
    buffer: Guarded<i32>,
    store: Guarded<u64>,
}

impl Lent {
    /// A store with room for so many places; of none it may be empty. Words behind the last place that fits are no place.
    pub fn new(case: &EditCase) -> Lent {
        let words = mizzengrape::store_words(case.places) + (case.length + 37 * case.places) % 300;
        let words = if case.places == 0 && case.length.is_multiple_of(2) { 0 } else { words };
        Lent { buffer: Guarded::new(&case.buffer, -7), store: Guarded::new(&vec![0; words], 0x7777) }
    }

    pub fn buffer(&mut self) -> &mut [i32] {
        self.buffer.content()
    }

    pub fn store(&mut self) -> &mut [u64] {
        self.store.content()
    }

    /// Nothing but the lent slices is written.
    pub fn is_whole(&self) -> bool {
        self.buffer.is_whole() && self.store.is_whole()
    }

    pub fn start(&mut self, length: usize, keep: &[u32]) -> EditWords {
        words(mizzengrape::edit_start(self.buffer.content(), length, self.store.content(), keep))
    }

    pub fn edit(&mut self, written: &Written) -> EditWords {
        let Written { operation, position, text, keep } = written;
        let (buffer, store) = (self.buffer.content(), self.store.content());
        words(mizzengrape::edit(buffer, *operation, *position, text, store, keep))
    }

    fn answer(&mut self, words: EditWords) -> EditAnswer {
        assert!(self.is_whole(), "words beside the buffer or the store are written");
        let stored = mizzengrape::kept(self.store()).iter().map(|&position| position as u32).collect();
        EditAnswer { words, stored, buffer: self.buffer().to_vec() }
    }
}

fn words(answer: mizzengrape::Edited) -> EditWords {
    let mizzengrape::Edited { verdict, walked, length, is_made } = answer;
    let [number, place, pointer] = verdict_words(verdict);
    [number, place, pointer, walked, length, is_made.into()]
}

pub fn edits(case: &EditCase) -> Edited {
    let mut lent = Lent::new(case);
    let started = lent.start(case.length, &case.keep);
    let mut answers = vec![lent.answer(started)];
    let is_taken = started[5] == 1;
    for written in case.edits.iter().filter(|_| is_taken) {
        let edited = lent.edit(written);
        answers.push(lent.answer(edited));
    }
    answers
}
