//! The calls of libcordbasin.a as they are linked; the header for C says what
//! each asks of its caller.

extern "C" {
    pub(crate) fn cordbasin_run(
        program: *const i32,
        program_words: usize,
        environment: *mut i32,
        environment_words: usize,
        heap: *mut i32,
        heap_words: usize,
        constraints: *mut i32,
        constraints_words: usize,
        proposals: *const i32,
        proposals_words: usize,
        budget: i32,
        answer: *mut [i32; 4],
    ) -> usize;

    pub(crate) fn cordbasin_assign(
        program: *const i32,
        program_words: usize,
        environment: *mut i32,
        environment_words: usize,
        heap: *mut i32,
        heap_words: usize,
        constraints: *mut i32,
        constraints_words: usize,
        entries: *const i32,
        entries_words: usize,
        proposals: *const i32,
        proposals_words: usize,
        budget: i32,
        answer: *mut [i32; 4],
    ) -> usize;

    pub(crate) fn cordbasin_ask(
        program: *const i32,
        program_words: usize,
        environment: *mut i32,
        environment_words: usize,
        heap: *mut i32,
        heap_words: usize,
        constraints: *mut i32,
        constraints_words: usize,
        word: i32,
        first: *const i32,
        first_words: usize,
        second: *const i32,
        second_words: usize,
        answer: *mut [i32; 3],
    ) -> usize;

    pub(crate) fn cordbasin_read(
        text: *const u8,
        text_bytes: usize,
        program: *mut i32,
        program_words: usize,
        origins: *mut i32,
        origins_words: usize,
        names: *mut i32,
        names_words: usize,
        answer: *mut [i32; 4],
    ) -> usize;

    pub(crate) fn cordbasin_write(
        program: *const i32,
        program_words: usize,
        source: *const u8,
        source_bytes: usize,
        names: *const i32,
        names_words: usize,
        text: *mut u8,
        text_bytes: usize,
        answer: *mut [i32; 4],
    ) -> usize;
}
