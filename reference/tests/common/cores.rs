//! The file of a core, and lists over it: its length in bytes is that of its
//! header and four bytes for each sample.

use super::*;

/// Makes the file and keeps, at 13, what must hold of it.
pub const CORE: [i32; 36] = [
    2, 2, 0, 3, 0, 23, 80, 1, 23, 16, 2, 23, 16, 3, 1, 3, 25, 6, 24, 0, 1, 0, 25, 1, 24, 0, 1, 1,
    25, 3, 23, 4, 24, 0, 1, 2,
];

/// The heap with one such file.
pub fn file(length: i32, header: i32, samples: i32) -> Vec<i32> {
    heap(&[&[(0, int(length)), (1, int(header)), (2, int(samples))]])
}

/// A list over the state that the program leaves.
pub fn list(entries: &[&[i32]], proposals: &[i32]) -> List {
    let mut sheet = fresh(&CORE, proposals);
    let core = environment(&[(0, reference(0))]);
    tables(&mut sheet, core, file(80, 16, 16), constraints(&[13], &[]));
    List {
        sheet,
        entries: entries.concat(),
    }
}

/// A list over a fresh state and a program that is empty.
pub fn fresh_list(entries: &[&[i32]], proposals: &[i32]) -> List {
    List {
        sheet: fresh(&[0], proposals),
        entries: entries.concat(),
    }
}

pub fn samples(number: i32) -> [i32; 5] {
    [0, 1, 2, 23, number]
}

pub fn header(bytes: i32) -> [i32; 5] {
    [0, 1, 1, 23, bytes]
}
