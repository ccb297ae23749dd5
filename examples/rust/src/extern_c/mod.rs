//! The boundary to the static library, here for one routine: the only module with unsafe code.
//!
//! Nothing checks these declarations against the library's source; they follow `include/mizzengrape.h`. What its caller has to promise of
//! each slice holds of every Rust slice: its pointer is not null, also of an empty one, is aligned and has its elements behind it, and what is
//! borrowed as `&mut` overlaps nothing else.

#![allow(unsafe_code)]

mod editor;
mod sets;
mod turns;

pub use editor::{edit_start_words, edit_words};
pub use sets::{check_set_words, run_set_words};
pub use turns::dispatch_words;

extern "C" {
    fn mizzengrape_version() -> u32;

    fn mizzengrape_check(table: *const i32, table_len: usize, answer: *mut u32, answer_len: usize) -> bool;

    fn mizzengrape_check_with_facts(
        table: *const i32,
        table_len: usize,
        facts: *const i32,
        facts_len: usize,
        report: *mut u32,
        report_len: usize,
        answer: *mut u32,
        answer_len: usize,
    ) -> bool;

    fn mizzengrape_run(
        table: *const i32,
        table_len: usize,
        directory: *const u32,
        directory_len: usize,
        cells: *mut u32,
        cells_len: usize,
        values: *mut u32,
        values_len: usize,
        origins: *const u32,
        origins_len: usize,
        limit: u32,
        answer: *mut u32,
        answer_len: usize,
    ) -> bool;

    fn mizzengrape_run_with_facts(
        table: *const i32,
        table_len: usize,
        facts: *const i32,
        facts_len: usize,
        directory: *const u32,
        directory_len: usize,
        cells: *mut u32,
        cells_len: usize,
        values: *mut u32,
        values_len: usize,
        origins: *const u32,
        origins_len: usize,
        limit: u32,
        answer: *mut u32,
        answer_len: usize,
    ) -> bool;
}

/// The version of the linked library as one number.
pub fn version_number() -> u32 {
    // SAFETY: it takes nothing.
    unsafe { mizzengrape_version() }
}

/// The answer words of a check.
pub fn check_words(table: &[i32]) -> [u32; 3] {
    let mut answer = [0; 3];
    // SAFETY: each pointer comes with the length of the slice it was taken from, and the library keeps none of them.
    let answered =
        unsafe { mizzengrape_check(table.as_ptr(), table.len(), answer.as_mut_ptr(), answer.len()) };
    assert!(answered, "three words are enough for an answer");
    answer
}

/// The report of a check with a list takes so many words at most: one for each statement.
const REPORT_WORDS: usize = 1_024;

/// The answer words of a check with a list of loop facts, and the statements it reports.
pub fn check_with_facts_words(table: &[i32], facts: &[i32]) -> ([u32; 3], Vec<u32>) {
    let mut answer = [0; 4];
    let mut report = vec![0; REPORT_WORDS];
    // SAFETY: as above; the two slices that are written overlap no other.
    let answered = unsafe {
        mizzengrape_check_with_facts(
            table.as_ptr(),
            table.len(),
            facts.as_ptr(),
            facts.len(),
            report.as_mut_ptr(),
            report.len(),
            answer.as_mut_ptr(),
            answer.len(),
        )
    };
    assert!(answered, "four words and a report of 1,024 are enough for an answer");
    let [number, place, pointer, reported] = answer;
    report.truncate(reported as usize);
    ([number, place, pointer], report)
}

/// The answer words of a run.
pub fn run_words(
    table: &[i32],
    directory: &[u32],
    cells: &mut [u32],
    values: &mut [u32],
    origins: &[u32],
    limit: u32,
) -> [u32; 4] {
    let mut answer = [0; 4];
    // SAFETY: as above; the slices that are written, `cells`, `values` and `answer`, overlap no other.
    let answered = unsafe {
        mizzengrape_run(
            table.as_ptr(),
            table.len(),
            directory.as_ptr(),
            directory.len(),
            cells.as_mut_ptr(),
            cells.len(),
            values.as_mut_ptr(),
            values.len(),
            origins.as_ptr(),
            origins.len(),
            limit,
            answer.as_mut_ptr(),
            answer.len(),
        )
    };
    assert!(answered, "four words are enough for an answer");
    answer
}

/// The answer words of a run with a list of loop facts.
pub fn run_with_facts_words(
    table: &[i32],
    facts: &[i32],
    directory: &[u32],
    cells: &mut [u32],
    values: &mut [u32],
    origins: &[u32],
    limit: u32,
) -> [u32; 4] {
    let mut answer = [0; 4];
    // SAFETY: as above.
    let answered = unsafe {
        mizzengrape_run_with_facts(
            table.as_ptr(),
            table.len(),
            facts.as_ptr(),
            facts.len(),
            directory.as_ptr(),
            directory.len(),
            cells.as_mut_ptr(),
            cells.len(),
            values.as_mut_ptr(),
            values.len(),
            origins.as_ptr(),
            origins.len(),
            limit,
            answer.as_mut_ptr(),
            answer.len(),
        )
    };
    assert!(answered, "four words are enough for an answer");
    answer
}
