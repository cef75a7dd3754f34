//! Programs written as texts, with their names or with default ones.

use crate::answer::Outcome;
use crate::call::{write_words, Writing, LONGEST_TEXT, NAMES_WORDS};
use crate::entry::{LABELS, VARIABLES};
use core::fmt;

/// Why a program has no text.
///
/// Prints on one line: `2 at word 33: program does not read`,
/// `24 at label 3: unfit names`, `25 at 65537 bytes: the text is too long`.
#[derive(Clone, Copy, Debug, PartialEq, Eq, Hash)]
pub enum Unwritten {
    /// 2, and the word at which the program does not read, or its length where
    /// words run out.
    UnfitProgram(usize),
    /// 24, and the first number at fault.
    UnfitNames(Numbered),
    /// 25, and the bytes that the whole text has.
    TooLong(usize),
}

/// A variable's number, or a label's. Prints as `variable 3`, `label 3`.
#[derive(Clone, Copy, Debug, PartialEq, Eq, Hash)]
pub enum Numbered {
    /// 0 to 63.
    Variable(usize),
    /// 0 to 31.
    Label(usize),
}

/// Writes the text of a program whose names are not known: variable 3 is `v3`
/// in it, and label 3 `f3`. It stands in the room that the host lends, and
/// every text that can be written has room in [`LONGEST_TEXT`] bytes.
///
/// Variables have to appear in the order of their numbers, from 0 without a
/// gap, and labels too, as they do in a text.
pub fn write<'r>(program: &[i32], room: &'r mut [u8]) -> Result<&'r str, Unwritten> {
    written(program, &[], &[0; NAMES_WORDS], room)
}

/// As [`write()`], with names for the variables and for the labels, each at its
/// number. Where a list ends before a number, or has an empty name there, its
/// name is not known. Names that no number has are not looked at.
///
/// All names together may have 65,536 bytes: one that would pass them is unfit.
pub fn write_named<'r>(
    program: &[i32],
    variables: &[&str],
    labels: &[&str],
    room: &'r mut [u8],
) -> Result<&'r str, Unwritten> {
    let mut names = Names::none();
    for (number, name) in variables.iter().take(VARIABLES).enumerate() {
        names.give(number, name.as_bytes());
    }
    for (number, name) in labels.iter().take(LABELS).enumerate() {
        names.give(VARIABLES + number, name.as_bytes());
    }
    written(program, names.source(), &names.table, room)
}

/// The text of a program, with the names that a table has in a source.
pub(crate) fn written<'r>(
    program: &[i32],
    source: &[u8],
    names: &[i32; NAMES_WORDS],
    room: &'r mut [u8],
) -> Result<&'r str, Unwritten> {
    let writing = write_words(program, source, names, room);
    if let Some(refusal) = Unwritten::of(&writing) {
        return Err(refusal);
    }
    let text = room.get(..writing.bytes).unwrap_or_default();
    match core::str::from_utf8(text) {
        Ok(text) => Ok(text),
        Err(_) => panic!("libcordbasin.a wrote {text:?}"),
    }
}

impl Unwritten {
    /// The refusal of [`write_words`]. There is none where the program was
    /// written, and for 1, which has no place.
    pub fn of(writing: &Writing) -> Option<Unwritten> {
        let place = writing.place;
        match writing.outcome {
            Outcome::UnfitProgram => Some(Unwritten::UnfitProgram(place)),
            Outcome::UnfitNames => Some(Unwritten::UnfitNames(Numbered::of(place))),
            Outcome::TextTooLong => Some(Unwritten::TooLong(place)),
            _ => None,
        }
    }

    /// Its number and what that says.
    pub fn outcome(self) -> Outcome {
        match self {
            Unwritten::UnfitProgram(_) => Outcome::UnfitProgram,
            Unwritten::UnfitNames(_) => Outcome::UnfitNames,
            Unwritten::TooLong(_) => Outcome::TextTooLong,
        }
    }
}

impl Numbered {
    /// Of 24's place, where labels follow the variables.
    fn of(place: usize) -> Numbered {
        match place.checked_sub(VARIABLES) {
            Some(label) => Numbered::Label(label),
            None => Numbered::Variable(place),
        }
    }
}

/// Names one behind another, with a table that tells where each is.
struct Names {
    bytes: [u8; LONGEST_TEXT],
    used: usize,
    table: [i32; NAMES_WORDS],
}

impl Names {
    fn none() -> Names {
        Names {
            bytes: [0; LONGEST_TEXT],
            used: 0,
            table: [0; NAMES_WORDS],
        }
    }

    /// Where there is no room for the name, the table tells of one that goes on
    /// behind the source.
    fn give(&mut self, number: usize, name: &[u8]) {
        let entry = self.table.chunks_mut(2).nth(number);
        if let Some([place, length]) = entry {
            *place = word(self.used);
            *length = word(name.len());
        }
        let room = self.bytes.get_mut(self.used..).unwrap_or_default();
        if let Some(room) = room.get_mut(..name.len()) {
            room.copy_from_slice(name);
            self.used += name.len();
        }
    }

    fn source(&self) -> &[u8] {
        self.bytes.get(..self.used).unwrap_or_default()
    }
}

/// A length as a word. One that is no word is longer than any source here.
fn word(length: usize) -> i32 {
    i32::try_from(length).unwrap_or(i32::MAX)
}

impl fmt::Display for Numbered {
    fn fmt(&self, out: &mut fmt::Formatter<'_>) -> fmt::Result {
        match self {
            Numbered::Variable(number) => write!(out, "variable {number}"),
            Numbered::Label(number) => write!(out, "label {number}"),
        }
    }
}

impl fmt::Display for Unwritten {
    fn fmt(&self, out: &mut fmt::Formatter<'_>) -> fmt::Result {
        let outcome = self.outcome();
        let number = outcome.number();
        match self {
            Unwritten::UnfitProgram(word) => write!(out, "{number} at word {word}: {outcome}"),
            Unwritten::UnfitNames(name) => write!(out, "{number} at {name}: {outcome}"),
            Unwritten::TooLong(bytes) => write!(out, "{number} at {bytes} bytes: {outcome}"),
        }
    }
}

impl core::error::Error for Unwritten {}
