//! Loop facts for a routine that has none: guessed, and kept where the proved library takes them. Nobody has to trust the guesses: the
//! library names each entry that it cannot show (17), and what is left is a list that it takes.

mod guesses;

use crate::form::MAX_ENTRIES;
use crate::library::{check_table, Checked, Refusal, Verdict};
use crate::table::Table;
use guesses::{facts_before, Guesses};
use std::collections::HashSet;

/// An entry of a list: while, x, y, k.
pub type Entry = [i32; 4];

/// Guesses build on facts that earlier ones brought; so often at most.
const MOST_ROUNDS: usize = 6;
/// So many guesses are tried at most, so that an answer comes in seconds for the longest routine too.
const MOST_GUESSES: usize = 4_000;

/// A list that the library takes, as few entries as give all that was found, and its verdict with it.
#[derive(Debug)]
pub struct Proposal {
    pub facts: Vec<i32>,
    pub checked: Checked,
}

/// Proposes a list for a routine; what is given is tried first and kept where it is of use.
pub fn propose(table: &Table, given: &[i32]) -> Proposal {
    let words = table.words();
    let given = given.chunks_exact(4).map(|entry| [entry[0], entry[1], entry[2], entry[3]]);
    let mut list = List::new(&words, given.collect());
    let guesses = Guesses::new(table);
    let mut tried: HashSet<Entry> = HashSet::new();
    for _ in 0..MOST_ROUNDS {
        let before = facts_before(&words, &list.facts());
        let mut fresh = guesses.of_all_loops(&before);
        fresh.retain(|guess| !tried.contains(guess) && !list.entries.contains(guess));
        fresh.truncate(MOST_GUESSES.saturating_sub(tried.len()));
        if fresh.is_empty() {
            break;
        }
        while !fresh.is_empty() {
            let room = MAX_ENTRIES.saturating_sub(list.entries.len()).max(1);
            let rest = fresh.split_off(room.min(fresh.len()));
            tried.extend(&fresh);
            list.try_all(fresh);
            fresh = rest;
        }
    }
    list.drop_needless();
    Proposal { facts: list.facts(), checked: list.checked }
}

/// A list that the library takes, or that leaves a refusal which no list repairs.
struct List<'a> {
    words: &'a [i32],
    entries: Vec<Entry>,
    checked: Checked,
}

impl<'a> List<'a> {
    fn new(words: &'a [i32], entries: Vec<Entry>) -> List<'a> {
        let (entries, checked) = settled(words, entries);
        List { words, entries, checked }
    }

    fn facts(&self) -> Vec<i32> {
        self.entries.concat()
    }

    /// With those of the guesses that hold. All are assumed together, so that facts that need each other are found.
    fn try_all(&mut self, guesses: Vec<Entry>) {
        let mut entries = self.entries.clone();
        entries.extend(guesses);
        entries.sort_by_key(|entry| entry[0]);
        *self = List::new(self.words, entries);
        let stronger = |one: &Entry, other: &Entry| one[..3] == other[..3] && one[3] < other[3];
        let entries = self.entries.clone();
        self.entries.retain(|entry| !entries.iter().any(|other| stronger(other, entry)));
        // Facts that a stronger one implies are not missed.
        self.checked = check_table(self.words, &self.facts());
    }

    /// Without the entries that make no access safe and repair nothing.
    fn drop_needless(&mut self) {
        if self.checked.verdict != Verdict::Accepted {
            *self = List::new(self.words, Vec::new());
            return;
        }
        let mut number = self.entries.len();
        while number > 0 {
            number -= 1;
            let mut fewer = self.entries.clone();
            fewer.remove(number);
            if check_table(self.words, &fewer.concat()) == self.checked {
                self.entries = fewer;
            }
        }
    }
}

/// The entries that are left when each one that the library refuses is taken out, and the verdict then.
fn settled(words: &[i32], mut entries: Vec<Entry>) -> (Vec<Entry>, Checked) {
    loop {
        let checked = check_table(words, &entries.concat());
        match checked.verdict {
            Verdict::Refused(Refusal { number: 17, place, .. }) if place < entries.len() => {
                entries.remove(place);
            }
            _ => return (entries, checked),
        }
    }
}
