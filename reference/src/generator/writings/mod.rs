//! Programs and names for comparing two writers: a seed and a number give
//! what is asked of them.

mod programs;
mod sizes;
mod tables;
mod unfit;

use super::numbers::Numbers;
use super::texts;
use crate::text::LARGEST_TEXT;
use crate::writer::{write, write_into, Answer};
pub use programs::in_order;
use tables::Table;

/// What the lent bytes are before a call. No text has such a byte.
pub const FILL: u8 = 0xa5;

/// What one call is given: a program, names over a source, and as many lent
/// bytes as there is room for.
#[derive(Clone, Debug, Default, PartialEq, Eq)]
pub struct WriteCase {
    pub program: Vec<i32>,
    pub source: Vec<u8>,
    pub names: Vec<i32>,
    pub room: usize,
}

impl WriteCase {
    fn new(program: Vec<i32>, table: Table) -> WriteCase {
        WriteCase {
            program,
            source: table.source,
            names: table.names,
            room: 0,
        }
    }

    /// The answer, and the lent bytes after it.
    pub fn answer(&self) -> (Answer, Vec<u8>) {
        let mut text = vec![FILL; self.room];
        let answer = write_into(&self.program, &self.source, &self.names, &mut text);
        (answer, text)
    }

    /// The length of the whole text, if there is one for any room.
    pub fn length(&self) -> Option<usize> {
        let writing = write(&self.program, &self.source, &self.names, usize::MAX);
        match writing.outcome {
            0 => Some(writing.text.len()),
            25 => Some(writing.place),
            _ => None,
        }
    }

    fn with_room(mut self, numbers: &mut Numbers) -> WriteCase {
        self.room = match self.length() {
            Some(length) => room(numbers, length),
            None => numbers.below(100),
        };
        self
    }
}

/// The case of a seed and number, the same on every machine.
pub fn case(seed: u64, index: u64) -> WriteCase {
    let mut numbers = Numbers::new(seed, index);
    let numbers = &mut numbers;
    match numbers.below(100) {
        0..=36 => usual(numbers),
        37..=42 => as_read(numbers),
        43..=66 => unfit_names(numbers),
        67..=74 => out_of_order(numbers),
        75..=89 => unfit_program(numbers),
        90..=92 => all_unfit(numbers),
        93..=95 => other_length(numbers),
        96 | 97 => short(numbers),
        98 => sizes::exact(numbers),
        _ => match numbers.below(3) {
            0 => sizes::huge(numbers),
            1 => sizes::long_name(numbers),
            _ => usual(numbers),
        },
    }
}

/// Room for a text: enough mostly, and often just so much.
fn room(numbers: &mut Numbers, length: usize) -> usize {
    if length > LARGEST_TEXT {
        let near = LARGEST_TEXT - 1 + numbers.below(4);
        return match numbers.below(6) {
            0 => 0,
            1 => numbers.below(LARGEST_TEXT),
            2 => length.min(2 * LARGEST_TEXT),
            3 => 2 * LARGEST_TEXT,
            _ => near,
        };
    }
    match numbers.below(40) {
        0..=11 => length,
        12..=15 => length.saturating_sub(1),
        16 => 0,
        17 | 18 => numbers.below(length),
        19..=21 => length + 1,
        22 => LARGEST_TEXT - 1 + numbers.below(3),
        _ => length + numbers.below(300),
    }
}

fn usual(numbers: &mut Numbers) -> WriteCase {
    let program = programs::any(numbers);
    let table = Table::any(numbers, &program);
    WriteCase::new(program, table).with_room(numbers)
}

/// The words and names that a reader finds in a text.
fn as_read(numbers: &mut Numbers) -> WriteCase {
    let seed = numbers.next();
    let mut samples = (0..4).map(|index| texts::sample(seed, index));
    let known = samples.find_map(|sample| Some((sample.text, sample.expected?)));
    let Some((source, expected)) = known else {
        return usual(numbers);
    };
    let case = WriteCase {
        program: expected.words,
        source,
        names: expected.names,
        room: 0,
    };
    case.with_room(numbers)
}

fn unfit_names(numbers: &mut Numbers) -> WriteCase {
    let program = match numbers.chance(80) {
        true => programs::small(numbers),
        false => programs::any(numbers),
    };
    let mut table = Table::any(numbers, &program);
    for _ in 0..=numbers.below(5) / 4 {
        unfit::spoil(numbers, &mut table, &program);
    }
    WriteCase::new(program, table).with_room(numbers)
}

/// Numbers that do not appear one after the other, or not all of them.
fn out_of_order(numbers: &mut Numbers) -> WriteCase {
    let program = programs::out_of_order(numbers);
    let table = Table::any(numbers, &program);
    WriteCase::new(program, table).with_room(numbers)
}

fn unfit_program(numbers: &mut Numbers) -> WriteCase {
    let program = programs::unfit(numbers);
    let table = Table::any(numbers, &program);
    WriteCase::new(program, table).with_room(numbers)
}

/// Names that are at fault, under a program that is too, or its numbers.
fn all_unfit(numbers: &mut Numbers) -> WriteCase {
    let program = match numbers.chance(60) {
        true => programs::unfit(numbers),
        false => programs::out_of_order(numbers),
    };
    let mut table = Table::any(numbers, &program);
    unfit::spoil(numbers, &mut table, &program);
    WriteCase::new(program, table).with_room(numbers)
}

/// A table of names that is too short or too long, over anything else.
fn other_length(numbers: &mut Numbers) -> WriteCase {
    let mut case = match numbers.below(4) {
        0 => unfit_names(numbers),
        1 => unfit_program(numbers),
        _ => usual(numbers),
    };
    let length = case.names.len();
    let other = match numbers.below(6) {
        0 => 0,
        1 => numbers.below(length),
        2 => length + numbers.below(200),
        3 => 128,
        4 => length - 1,
        _ => length + 1,
    };
    case.names.resize(other, 0);
    case
}

/// A text that is whole but for its last bytes.
fn short(numbers: &mut Numbers) -> WriteCase {
    let mut case = usual(numbers);
    let length = case.length().unwrap_or(0).min(LARGEST_TEXT);
    case.room = length.saturating_sub(1 + numbers.below(8));
    case
}
