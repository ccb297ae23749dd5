//! The boundary for several routines in turn.

use crate::turns::{Parts, Room};

extern "C" {
    fn mizzengrape_dispatch(
        tables: *const i32,
        tables_len: usize,
        facts: *const i32,
        facts_len: usize,
        directories: *const u32,
        directories_len: usize,
        cells: *mut u32,
        cells_len: usize,
        values: *mut u32,
        values_len: usize,
        origins: *const u32,
        origins_len: usize,
        lengths: *const u32,
        lengths_len: usize,
        quantum: u32,
        total: u32,
        ends: *mut u64,
        ends_len: usize,
        successors: *mut u32,
        successors_len: usize,
        answer: *mut u32,
        answer_len: usize,
    ) -> bool;
}

/// The answer of the dispatcher takes so many words: five, and four for each of eight routines.
const DISPATCH_WORDS: usize = 37;

/// The answer words of the dispatcher.
pub fn dispatch_words(parts: &mut Parts, quantum: u32, total: u32, room: &mut Room) -> [u32; DISPATCH_WORDS] {
    let mut answer = [0; DISPATCH_WORDS];
    let Parts { tables, facts, directories, cells, values, origins, lengths } = parts;
    // SAFETY: as in `mod.rs`; `cells`, `values`, the room and `answer` are written and overlap no other.
    let answered = unsafe {
        mizzengrape_dispatch(
            tables.as_ptr(),
            tables.len(),
            facts.as_ptr(),
            facts.len(),
            directories.as_ptr(),
            directories.len(),
            cells.as_mut_ptr(),
            cells.len(),
            values.as_mut_ptr(),
            values.len(),
            origins.as_ptr(),
            origins.len(),
            lengths.as_ptr(),
            lengths.len(),
            quantum,
            total,
            room.ends.as_mut_ptr(),
            room.ends.len(),
            room.successors.as_mut_ptr(),
            room.successors.len(),
            answer.as_mut_ptr(),
            answer.len(),
        )
    };
    assert!(answered, "37 words and the room are enough for an answer");
    answer
}
