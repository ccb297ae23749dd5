//! The boundary for a table that is edited.

extern "C" {
    fn mizzengrape_edit_start(
        table: *const i32,
        table_len: usize,
        length: usize,
        store: *mut u64,
        store_len: usize,
        keep: *const u32,
        keep_len: usize,
        answer: *mut u32,
        answer_len: usize,
    ) -> bool;

    fn mizzengrape_edit(
        table: *mut i32,
        table_len: usize,
        operation: u32,
        position: u32,
        text: *const i32,
        text_len: usize,
        store: *mut u64,
        store_len: usize,
        keep: *const u32,
        keep_len: usize,
        answer: *mut u32,
        answer_len: usize,
    ) -> bool;
}

/// The answer of an editing call takes so many words.
const EDIT_WORDS: usize = 6;

/// The answer words of taking the table of `length` words in a buffer, to be edited there.
pub fn edit_start_words(buffer: &[i32], length: usize, store: &mut [u64], keep: &[u32]) -> [u32; EDIT_WORDS] {
    let mut answer = [0; EDIT_WORDS];
    // SAFETY: as in `mod.rs`; `store` and `answer` are written and overlap no other.
    let answered = unsafe {
        mizzengrape_edit_start(
            buffer.as_ptr(),
            buffer.len(),
            length,
            store.as_mut_ptr(),
            store.len(),
            keep.as_ptr(),
            keep.len(),
            answer.as_mut_ptr(),
            answer.len(),
        )
    };
    assert!(answered, "six words are enough for an answer");
    answer
}

/// The answer words of an edit.
pub fn edit_words(
    buffer: &mut [i32],
    operation: u32,
    position: u32,
    text: &[i32],
    store: &mut [u64],
    keep: &[u32],
) -> [u32; EDIT_WORDS] {
    let mut answer = [0; EDIT_WORDS];
    // SAFETY: as in `mod.rs`; `buffer`, `store` and `answer` are written and overlap no other.
    let answered = unsafe {
        mizzengrape_edit(
            buffer.as_mut_ptr(),
            buffer.len(),
            operation,
            position,
            text.as_ptr(),
            text.len(),
            store.as_mut_ptr(),
            store.len(),
            keep.as_ptr(),
            keep.len(),
            answer.as_mut_ptr(),
            answer.len(),
        )
    };
    assert!(answered, "six words are enough for an answer");
    answer
}
