//! Facts listed of loops (point 9): entries (while statement, x, y, k), "each meaning x <= y + k at every test; -1
//! stands for zero".

use crate::answer::Refusal;
use crate::facts::{Facts, Node, ZERO};
use crate::table::{constant, Routine, Statement};

pub const ENTRY_WORDS: usize = 4;
/// "at most 256 entries".
pub const MAX_ENTRIES: usize = 256;

#[derive(Clone, Copy, Debug, PartialEq, Eq)]
pub struct Entry {
    /// The while statement.
    pub head: usize,
    pub x: Node,
    pub y: Node,
    pub k: i64,
}

/// A list whose form is right, sorted by statement.
#[derive(Clone, Debug, Default, PartialEq, Eq)]
pub struct LoopFacts(Vec<Entry>);

impl LoopFacts {
    /// The form of a list, "found after 6, before the walk": 17 with the first entry that is "cut short, unsorted, or
    /// names no while, no variable (-1 twice too), two of different kinds or a k beyond 65,536 either way".
    pub fn read(routine: &Routine, words: &[i32]) -> Result<LoopFacts, Refusal> {
        // "256 first, when there are more"; one cut short counts too.
        if words.len() > ENTRY_WORDS * MAX_ENTRIES {
            return Err(Refusal::at(17, MAX_ENTRIES));
        }
        let mut entries: Vec<Entry> = Vec::new();
        for (number, record) in words.chunks(ENTRY_WORDS).enumerate() {
            let sorted = |entry: &Entry| entries.last().is_none_or(|before| before.head <= entry.head);
            let entry = read_entry(routine, record).filter(sorted);
            entries.push(entry.ok_or(Refusal::at(17, number))?);
        }
        Ok(LoopFacts(entries))
    }

    pub fn entries(&self) -> &[Entry] {
        &self.0
    }

    /// The entries of one loop with their numbers, lowest first.
    pub fn of_loop(&self, head: usize) -> impl Iterator<Item = (usize, Entry)> + '_ {
        self.0.iter().copied().enumerate().filter(move |(_, entry)| entry.head == head)
    }

    /// The lowest entry of a loop that the facts do not show.
    pub fn first_unshown(&self, head: usize, facts: &Facts) -> Option<(usize, Entry)> {
        self.of_loop(head).find(|(_, entry)| !facts.shows(entry.x, entry.y, entry.k))
    }

    /// "all entries of that loop assumed together".
    pub fn assume(&self, head: usize, facts: Facts) -> Facts {
        self.of_loop(head).fold(facts, |facts, (_, entry)| facts.add(entry.x, entry.y, entry.k))
    }
}

fn read_entry(routine: &Routine, record: &[i32]) -> Option<Entry> {
    let &[head, x, y, k] = record else { return None };
    let head = usize::try_from(head).ok()?;
    let Some(Statement::While { .. }) = routine.statements.get(head) else { return None };
    let node = |word: i32| match word {
        -1 => Some(ZERO),
        _ => usize::try_from(word).ok().filter(|&v| v < routine.kinds.len()),
    };
    let (x, y) = (node(x)?, node(y)?);
    // Of zero there is no kind; two variables have the same kind word.
    let fits = match (routine.kinds.get(x), routine.kinds.get(y)) {
        (None, None) => false,
        (Some(one), Some(other)) => one == other,
        _ => true,
    };
    fits.then_some(Entry { head, x, y, k: i64::from(constant(k)?) })
}

#[cfg(test)]
#[path = "loop_facts_tests.rs"]
mod tests;
