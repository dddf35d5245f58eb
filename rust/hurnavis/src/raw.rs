//! The exported calls as they are, for who wants the numbers: slices in, 0 or the refusal's number out, and the answer in a
//! place that the caller lends. A refused call leaves that place, and all else that was lent, as it was.
//!
//! The calls of the crate's root have typed answers; take those where nothing speaks against it.

extern "C" {
    fn hurnavis_check_table(table: *const u8, table_len: usize) -> u32;
    fn hurnavis_work_words(
        table: *const u8,
        table_len: usize,
        model: usize,
        answer: usize,
        words_needed: *mut u64,
    ) -> u32;
    fn hurnavis_board(
        table: *const u8,
        table_len: usize,
        structure: *const u8,
        structure_len: usize,
        words: *mut u64,
        words_len: usize,
    ) -> u32;
    fn hurnavis_decide(
        table: *const u8,
        table_len: usize,
        entry: usize,
        words: *mut u64,
        words_len: usize,
        possible: *mut u8,
    ) -> u32;
    fn hurnavis_mark(
        table: *const u8,
        table_len: usize,
        model: usize,
        answer: usize,
        words: *mut u64,
        words_len: usize,
        mark: *mut u8,
    ) -> u32;
    fn hurnavis_read_text(
        text: *const u8,
        text_len: usize,
        table: *mut u8,
        table_len: usize,
        entries: *mut u8,
    ) -> u32;
    fn hurnavis_draft_new(draft: *mut u8, draft_len: usize) -> u32;
    fn hurnavis_draft_add(draft: *mut u8, draft_len: usize, entry: u32) -> u32;
    fn hurnavis_draft_save(draft: *mut u8, draft_len: usize, name: u8) -> u32;
    fn hurnavis_draft_back(draft: *mut u8, draft_len: usize, name: u8) -> u32;
}

// Each call below is safe: a slice's pointer is valid for its length while the call runs, what is lent for writing is
// borrowed by it alone, and the library keeps no pointer.

/// 0 for an accepted table.
#[must_use]
pub fn check_table(table: &[u8]) -> u32 {
    unsafe { hurnavis_check_table(table.as_ptr(), table.len()) }
}

/// 0 with the words that a mark needs in `words_needed`.
#[must_use]
pub fn work_words(table: &[u8], model: usize, answer: usize, words_needed: &mut u64) -> u32 {
    unsafe { hurnavis_work_words(table.as_ptr(), table.len(), model, answer, words_needed) }
}

/// 0 with one word written for each entry.
#[must_use]
pub fn board(table: &[u8], structure: &[u8], words: &mut [u64]) -> u32 {
    unsafe {
        hurnavis_board(
            table.as_ptr(),
            table.len(),
            structure.as_ptr(),
            structure.len(),
            words.as_mut_ptr(),
            words.len(),
        )
    }
}

/// 0 with 1 in `possible` for an entry that is possible, 0 for one that is not.
#[must_use]
pub fn decide(table: &[u8], entry: usize, words: &mut [u64], possible: &mut u8) -> u32 {
    unsafe {
        hurnavis_decide(
            table.as_ptr(),
            table.len(),
            entry,
            words.as_mut_ptr(),
            words.len(),
            possible,
        )
    }
}

/// 0 with the mark's number in `mark`: 0 equal, 1 narrower, 2 wider, 3 crossing, 4 impossible.
#[must_use]
pub fn mark(table: &[u8], model: usize, answer: usize, words: &mut [u64], mark: &mut u8) -> u32 {
    unsafe {
        hurnavis_mark(
            table.as_ptr(),
            table.len(),
            model,
            answer,
            words.as_mut_ptr(),
            words.len(),
            mark,
        )
    }
}

/// 0 with the table of the text at the start of `table` and the number of its entries in `entries`.
#[must_use]
pub fn read_text(text: &[u8], table: &mut [u8], entries: &mut u8) -> u32 {
    unsafe {
        hurnavis_read_text(
            text.as_ptr(),
            text.len(),
            table.as_mut_ptr(),
            table.len(),
            entries,
        )
    }
}

/// 0 with a fresh draft in `draft`, whatever stood in it.
#[must_use]
pub fn draft_new(draft: &mut [u8]) -> u32 {
    unsafe { hurnavis_draft_new(draft.as_mut_ptr(), draft.len()) }
}

/// 0 with the entry behind the others.
#[must_use]
pub fn draft_add(draft: &mut [u8], entry: u32) -> u32 {
    unsafe { hurnavis_draft_add(draft.as_mut_ptr(), draft.len(), entry) }
}

/// 0 with the draft saved under the name.
#[must_use]
pub fn draft_save(draft: &mut [u8], name: u8) -> u32 {
    unsafe { hurnavis_draft_save(draft.as_mut_ptr(), draft.len(), name) }
}

/// 0 with the entries that were saved under the name, and those alone.
#[must_use]
pub fn draft_back(draft: &mut [u8], name: u8) -> u32 {
    unsafe { hurnavis_draft_back(draft.as_mut_ptr(), draft.len(), name) }
}
