//! The boundary for routines that call each other.

use crate::sets::{Lent, Set, SetRoom};

extern "C" {
    fn mizzengrape_check_set(
        tables: *const i32,
        tables_len: usize,
        lengths: *const u32,
        lengths_len: usize,
        member: *mut i32,
        member_len: usize,
        answer: *mut u32,
        answer_len: usize,
    ) -> bool;

    fn mizzengrape_run_set(
        tables: *const i32,
        tables_len: usize,
        lengths: *const u32,
        lengths_len: usize,
        directory: *const u32,
        directory_len: usize,
        cells: *mut u32,
        cells_len: usize,
        values: *mut u32,
        values_len: usize,
        origins: *const u32,
        origins_len: usize,
        limit: u32,
        member: *mut i32,
        member_len: usize,
        ends: *mut u64,
        ends_len: usize,
        successors: *mut u32,
        successors_len: usize,
        answer: *mut u32,
        answer_len: usize,
    ) -> bool;
}

/// The answer words of a check of a set.
pub fn check_set_words(set: Set, room: &mut SetRoom) -> [u32; 4] {
    let mut answer = [0; 4];
    // SAFETY: as in `mod.rs`; the room and `answer` are written and overlap no other.
    let answered = unsafe {
        mizzengrape_check_set(
            set.tables.as_ptr(),
            set.tables.len(),
            set.lengths.as_ptr(),
            set.lengths.len(),
            room.member.as_mut_ptr(),
            room.member.len(),
            answer.as_mut_ptr(),
            answer.len(),
        )
    };
    assert!(answered, "four words and the room are enough for an answer");
    answer
}

/// The answer words of a run of a set.
pub fn run_set_words(set: Set, lent: &mut Lent, limit: u32, room: &mut SetRoom) -> [u32; 5] {
    let mut answer = [0; 5];
    let Lent { directory, cells, values, origins } = lent;
    let SetRoom { member, room } = room;
    // SAFETY: as in `mod.rs`; `cells`, `values`, the room and `answer` are written and overlap no other.
    let answered = unsafe {
        mizzengrape_run_set(
            set.tables.as_ptr(),
            set.tables.len(),
            set.lengths.as_ptr(),
            set.lengths.len(),
            directory.as_ptr(),
            directory.len(),
            cells.as_mut_ptr(),
            cells.len(),
            values.as_mut_ptr(),
            values.len(),
            origins.as_ptr(),
            origins.len(),
            limit,
            member.as_mut_ptr(),
            member.len(),
            room.ends.as_mut_ptr(),
            room.ends.len(),
            room.successors.as_mut_ptr(),
            room.successors.len(),
            answer.as_mut_ptr(),
            answer.len(),
        )
    };
    assert!(answered, "five words and the room are enough for an answer");
    answer
}
