//! Refusal 17: why an entry of the list of loop facts is not taken.

use super::bounds::UNRELATED;
use super::draft::Draft;
use super::lost::{self, lost_at, Fact};
use super::walk::{Unshown, Walk};
use super::{facts, Explanation, Note, Place};
use crate::form::list_fault;
use crate::library::Refusal;
use crate::names::Names;
use crate::program::Program;
use crate::table::Table;
use oracle::checker::Asked;
use oracle::facts::ZERO;

/// The form of the list: entries cut short, unsorted, that name wrongly, or too many of them.
pub fn form(program: &Program, refusal: &Refusal) -> Option<Explanation> {
    let tables = [Table::split(program.tables.first()?).ok()?];
    let canonical = Names::canonical(&tables);
    let names = program.text.as_ref().map_or(&canonical, |text| &text.names);
    let (entry, sentence) = list_fault(&tables[0], names, &program.facts).err()?;
    let map = program.text.as_ref().and_then(|text| text.map.routines.first());
    let at = map.and_then(|map| map.facts.get(refusal.place).copied());
    let words = program.facts.chunks(4).nth(entry).filter(|_| program.of_words);
    let note = words.map(|words| {
        let words: Vec<String> = words.iter().map(i32::to_string).collect();
        Note::new(format!("the words of the entry are {}", words.join(" ")))
    });
    Some(Explanation { notes: note.into_iter().collect(), ..Explanation::new(at, sentence) })
}

/// An entry whose fact is not shown before its loop, or again at the end of the body.
pub fn not_shown(place: &Place, seen: &Walk, refusal: &Refusal) -> Option<Explanation> {
    let Unshown { entry, asked, facts: known } = seen.unshown.as_ref()?;
    let printer = &place.printer;
    let (x, y) = (word(entry.x), word(entry.y));
    let when = match asked {
        Asked::BeforeLoop => "before the loop",
        Asked::AtBodyEnd => "again at the end of the body",
    };
    let fact = printer.fact(x, y, entry.k);
    let sentence = format!("the loop fact `{fact}` is not shown {when}");
    let mut notes = Vec::new();
    let best = known.sum(entry.x, entry.y);
    if best.abs() <= UNRELATED && (entry.x, best) != (ZERO, 0) {
        notes.push(Note::new(format!("best: {}", printer.fact(x, y, best))));
    } else {
        let fact = Fact { x: entry.x, y: entry.y, k: entry.k };
        let lost = lost_at(&Draft::of(place), fact);
        notes.extend(lost.map(|s| Note::new(lost::note(place, s))));
    }
    notes.push(facts::note(printer, known, &[x, y]));
    Some(Explanation { notes, ..Explanation::new(place.entry(refusal.place), sentence) })
}

/// The word of a variable in an entry; zero is -1.
fn word(node: usize) -> i32 {
    if node == ZERO {
        -1
    } else {
        node as i32
    }
}
