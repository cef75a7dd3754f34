//! The C call of crates/sheet, linked into this program.

extern "C" {
    fn sheet_answer(
        text: *const u8,
        text_bytes: usize,
        output: *mut u8,
        output_bytes: usize,
    ) -> usize;
}

/// Enough bytes for every output.
pub const MOST_BYTES: usize = 30_930;

/// Writes the whole output for a text, as far as there is room, and gives how
/// many bytes were written.
pub fn answer(text: &[u8], output: &mut [u8]) -> usize {
    // SAFETY: each pointer and count are those of one slice, which lives until
    // the call returns. The output is borrowed for it alone.
    unsafe { sheet_answer(text.as_ptr(), text.len(), output.as_mut_ptr(), output.len()) }
}
