//! The papers' notation: the words of a program are written as a text.
//!
//! Words become trees, and trees become bytes, with the fewest brackets and
//! fixed spacing. What is written is read back to the same words.

mod again;
mod appearances;
mod names;
mod print;

pub use again::is_read_back;
pub use appearances::{appearances, Appearance, Sort};
pub use names::Fault;

use crate::program::Program;
use crate::text::{LARGEST_TEXT, NAME_WORDS};
use names::Names;

/// All that comes of a program. A refusal has no text and no counts; `fault`
/// is told for 24 alone, and is no part of the answer.
#[derive(Clone, Debug, Default, PartialEq, Eq)]
pub struct Writing {
    pub outcome: i32,
    pub place: usize,
    pub text: Vec<u8>,
    pub variables: usize,
    pub labels: usize,
    pub fault: Option<Fault>,
}

impl Writing {
    fn refused(outcome: i32, place: usize) -> Writing {
        Writing {
            outcome,
            place,
            ..Writing::default()
        }
    }
}

/// Writes a program with names over the bytes of a source, where so many
/// bytes have room.
pub fn write(program: &[i32], source: &[u8], names: &[i32], room: usize) -> Writing {
    if names.len() != NAME_WORDS {
        return Writing::refused(1, 0);
    }
    let tree = match Program::decode(program) {
        Ok(tree) => tree,
        Err(place) => return Writing::refused(2, place),
    };
    let names = match Names::judge(source, names, &appearances(&tree)) {
        Ok(names) => names,
        Err((place, fault)) => {
            return Writing {
                fault: Some(fault),
                ..Writing::refused(24, place)
            }
        }
    };
    let pieces = print::pieces(&names, &tree.block);
    let length = pieces.iter().map(|piece| piece.len()).sum();
    if length > room.min(LARGEST_TEXT) {
        return Writing::refused(25, length);
    }
    Writing {
        outcome: 0,
        place: program.len(),
        text: pieces.concat(),
        variables: names.variables_used,
        labels: names.labels_used,
        fault: None,
    }
}

/// What the call for a host answers beside the lent bytes.
#[derive(Clone, Copy, Debug, Default, PartialEq, Eq)]
pub struct Answer {
    pub outcome: i32,
    pub place: usize,
    pub variables: usize,
    pub labels: usize,
    pub bytes: usize,
}

/// Writes a program into lent bytes, as the call for a host does: nothing is
/// written on a refusal, and nothing behind the text.
pub fn write_into(program: &[i32], source: &[u8], names: &[i32], text: &mut [u8]) -> Answer {
    let writing = write(program, source, names, text.len());
    for (lent, byte) in text.iter_mut().zip(&writing.text) {
        *lent = *byte;
    }
    Answer {
        outcome: writing.outcome,
        place: writing.place,
        variables: writing.variables,
        labels: writing.labels,
        bytes: writing.text.len(),
    }
}

/// The text of a program with the names `v0`, `f0` and so on, if it is written
/// at all.
pub fn printed(program: &[i32]) -> Option<String> {
    let writing = write(program, &[], &[0; NAME_WORDS], LARGEST_TEXT);
    match writing.outcome {
        0 => String::from_utf8(writing.text).ok(),
        _ => None,
    }
}
