//! Decoding of a routine table: causes 1 to 6, in the paper's order.

use crate::answer::Refusal;
use crate::statements::{check_block, read_statements, Names};
pub use crate::syntax::*;

/// 6 directory words, 16 objects, 16 variables of 8, 1,024 statements of 7.
pub const MAX_WORDS: usize = 7_318;
/// Point 2: "up to 7,704 words in all", with a fourth pair and 64 rows of 6.
pub const MAX_WORDS_WITH_ROWS: usize = 7_704;
pub const MAX_OBJECTS: usize = 16;
pub const MAX_VARIABLES: usize = 16;
pub const MAX_STATEMENTS: usize = 1_024;
pub const MAX_ROWS: usize = 64;
pub const MAX_OBJECT_LENGTH: u32 = 1_000_000;
pub const MAX_CONSTANT: i32 = 65_536;
pub const MAX_SIZE: i32 = 8;
/// Point 8: "The limit becomes 6; depth 7 is refusal 6." Top statements have depth 0.
pub const MAX_DEPTH: usize = 6;
pub const MAX_BUNDLE: usize = 16;
pub const VARIABLE_WORDS: usize = 8;
pub const STATEMENT_WORDS: usize = 7;
pub const ROW_WORDS: usize = 6;

/// Decodes the table of a routine by itself, or gives the first refusal of causes 1 to 6.
pub fn decode(words: &[i32]) -> Result<Routine, Refusal> {
    decode_member(words, None)
}

/// The same of a routine of a set (point 14), which has the objects of routine 0, unless it is that one.
pub fn decode_member(words: &[i32], of_all: Option<&[Object]>) -> Result<Routine, Refusal> {
    // Point 2: "A first offset of 8 means a fourth pair and section"; every other table keeps its limit.
    let (pairs, most) = if words.first() == Some(&8) { (4, MAX_WORDS_WITH_ROWS) } else { (3, MAX_WORDS) };
    if words.len() < 6 || words.len() > most {
        return Err(Refusal::at(1, 0));
    }
    let Some([objects, variables, statements, rows]) = sections(words, pairs) else {
        return Err(Refusal::at(2, 0));
    };
    let objects = match of_all {
        // "Only routine 0 lists objects, for all (else 3, place 0)".
        Some(_) if !objects.is_empty() => return Err(Refusal::at(3, 0)),
        Some(of_all) => of_all.to_vec(),
        None => read_objects(objects)?,
    };
    let ends = Ends::new(variables);
    let (kinds, bounds, sizes) = read_variables(variables, &ends)?;
    let rows = read_rows(rows, kinds.len(), &ends)?;
    let mut names = Names::new(&kinds, &objects, rows.len());
    let statements = read_statements(statements, &mut names)?;
    check_block(&statements, 0, statements.len(), 0).map_err(|place| Refusal::at(6, place))?;
    Ok(Routine { objects, kinds, bounds, sizes, rows, statements, compared: names.compared })
}

/// Cause 2: the sections of so many pairs, if directory and lengths are right; one without a pair is empty.
fn sections(words: &[i32], pairs: usize) -> Option<[&[i32]; 4]> {
    let limits = [
        (1, 0, MAX_OBJECTS),
        (VARIABLE_WORDS, 1, MAX_VARIABLES),
        (STATEMENT_WORDS, 0, MAX_STATEMENTS),
        (ROW_WORDS, 0, MAX_ROWS),
    ];
    let mut parts: [&[i32]; 4] = [&[]; 4];
    let mut start = 2 * pairs;
    for (section, (size, least, most)) in limits.into_iter().take(pairs).enumerate() {
        let offset = usize::try_from(*words.get(2 * section)?).ok()?;
        let length = usize::try_from(*words.get(2 * section + 1)?).ok()?;
        let right_length = length % size == 0 && (least..=most).contains(&(length / size));
        if offset != start || !right_length {
            return None;
        }
        parts[section] = words.get(start..start + length)?;
        start += length;
    }
    (start == words.len()).then_some(parts)
}

/// Cause 3.
fn read_objects(words: &[i32]) -> Result<Vec<Object>, Refusal> {
    let read_object = |(o, word): (usize, &i32)| {
        let length = word.unsigned_abs();
        let right = (1..=MAX_OBJECT_LENGTH).contains(&length);
        right.then_some(Object { length, terminated: *word < 0 }).ok_or(Refusal::at(3, o))
    };
    words.iter().enumerate().map(read_object).collect()
}

/// Reads ends. An end names a pointer or an integer by that record's kind word
/// alone, whatever else is wrong with the record.
struct Ends {
    kind_words: Vec<i32>,
}

impl Ends {
    fn new(variables: &[i32]) -> Ends {
        Ends { kind_words: variables.chunks_exact(VARIABLE_WORDS).map(|record| record[0]).collect() }
    }

    fn of_kinds(&self, word: i32, kinds: &[i32]) -> Option<Var> {
        let variable = usize::try_from(word).ok()?;
        kinds.contains(self.kind_words.get(variable)?).then_some(variable as Var)
    }

    fn end(&self, end: &[i32]) -> Option<End> {
        // Point 7: "Ends may name both kinds of pointer."
        let pointer = self.of_kinds(end[0], &[1, 2])?;
        let integer = if end[1] == -1 { None } else { Some(self.of_kinds(end[1], &[0])?) };
        Some(End { pointer, integer, constant: constant(end[2])? })
    }

    /// The lower and the upper end, six words.
    fn bounds(&self, words: &[i32]) -> Option<Bounds> {
        Some(Bounds { lower: self.end(&words[..3])?, upper: self.end(&words[3..])? })
    }
}

type Variables = (Vec<Kind>, Vec<Option<Bounds>>, Vec<u8>);

/// Cause 4 of the variables.
fn read_variables(words: &[i32], ends: &Ends) -> Result<Variables, Refusal> {
    let read_record = |record: &[i32]| match record[0] {
        0 if record[1..].iter().all(|&w| w == 0) => Some((Kind::Integer, None, 1)),
        1 => Some((Kind::Pointer, Some(ends.bounds(&record[2..])?), size(record[1])?)),
        2 => Some((Kind::Terminated, Some(ends.bounds(&record[2..])?), size(record[1])?)),
        _ => None,
    };
    words
        .chunks_exact(VARIABLE_WORDS)
        .enumerate()
        .map(|(v, record)| read_record(record).ok_or(Refusal::at(4, v)))
        .collect()
}

/// Point 2: "A faulty row is refusal 4 with the place number of variables plus row."
fn read_rows(words: &[i32], variables: usize, ends: &Ends) -> Result<Vec<Bounds>, Refusal> {
    words
        .chunks_exact(ROW_WORDS)
        .enumerate()
        .map(|(r, row)| ends.bounds(row).ok_or(Refusal::at(4, variables + r)))
        .collect()
}

/// Every k of the table is -65,536 to 65,536.
pub(crate) fn constant(word: i32) -> Option<i32> {
    (-MAX_CONSTANT..=MAX_CONSTANT).contains(&word).then_some(word)
}

/// Point 10: "The word after a pointer's kind is now its element size s, 0 or 1 for one cell, at most 8".
fn size(word: i32) -> Option<u8> {
    (0..=MAX_SIZE).contains(&word).then_some(word.max(1) as u8)
}

#[cfg(test)]
#[path = "table_tests.rs"]
mod tests;
