//! What was written, read and written once more.

use super::write;
use crate::text::{read, LARGEST_TEXT};

/// Whether a text that was written is read to the same words, with as many
/// variables and labels, and the names that are read from it write the same
/// bytes.
pub fn is_read_back(program: &[i32], text: &[u8], variables: usize, labels: usize) -> bool {
    let reading = read(text);
    let counts = (reading.variables, reading.labels);
    if reading.outcome != 0 || reading.words != program || counts != (variables, labels) {
        return false;
    }
    let again = write(&reading.words, text, &reading.names, LARGEST_TEXT);
    let counts = (again.variables, again.labels);
    again.outcome == 0 && again.text == text && counts == (variables, labels)
}
