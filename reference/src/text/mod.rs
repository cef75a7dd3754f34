//! The papers' notation: a text is read to the words of its program.
//!
//! Bytes become tokens, tokens become trees, trees become words. Every token
//! is judged where it stands, from the tokens before it and itself.

mod expressions;
mod names;
mod reader;
mod tokens;
mod trees;
mod words;

pub use names::{LABELS, VARIABLES};
use reader::{Reader, Refusal};
pub use tokens::{is_name, KEYWORDS};

pub const LARGEST_TEXT: usize = 65_536;
pub const PROGRAM_WORDS: usize = 4096;
pub const NAME_WORDS: usize = 192;

/// The limit that a text refused with 22 has passed.
#[derive(Clone, Copy, Debug, PartialEq, Eq, PartialOrd, Ord)]
pub enum Limit {
    Number,
    Statements,
    Parts,
    Fields,
    Labels,
    Blocks,
    Levels,
    Words,
    Size,
}

impl Limit {
    pub const ALL: [Limit; 9] = [
        Limit::Number,
        Limit::Statements,
        Limit::Parts,
        Limit::Fields,
        Limit::Labels,
        Limit::Blocks,
        Limit::Levels,
        Limit::Words,
        Limit::Size,
    ];
}

/// All that comes of a text. A refusal has no words, origins, names or
/// counts; `limit` is told for 22 alone, and is no part of the answer.
#[derive(Clone, Debug, Default, PartialEq, Eq)]
pub struct Reading {
    pub outcome: i32,
    pub place: usize,
    pub words: Vec<i32>,
    pub origins: Vec<i32>,
    pub names: Vec<i32>,
    pub variables: usize,
    pub labels: usize,
    pub limit: Option<Limit>,
}

/// Reads a whole text.
pub fn read(text: &[u8]) -> Reading {
    let mut reader = Reader::new(tokens::tokens(text));
    match reader.text() {
        Ok(block) => {
            let (words, origins) = words::of(&block);
            Reading {
                outcome: 0,
                place: text.len(),
                words,
                origins,
                names: reader.names.table(),
                variables: reader.names.variables(),
                labels: reader.names.labels(),
                limit: None,
            }
        }
        Err(Refusal {
            outcome,
            place,
            limit,
        }) => Reading {
            outcome,
            place,
            limit,
            ..Reading::default()
        },
    }
}

/// What the call for a host answers beside the lent words.
#[derive(Clone, Copy, Debug, Default, PartialEq, Eq)]
pub struct Answer {
    pub outcome: i32,
    pub place: usize,
    pub variables: usize,
    pub labels: usize,
    pub words: usize,
}

/// Reads a text into lent words, as the call for a host does: 1 where one of
/// them has another length than its own, and nothing is written on a refusal.
pub fn read_into(
    text: &[u8],
    program: &mut [i32],
    origins: &mut [i32],
    names: &mut [i32],
) -> Answer {
    let lengths = (program.len(), origins.len(), names.len());
    if lengths != (PROGRAM_WORDS, PROGRAM_WORDS, NAME_WORDS) {
        return Answer {
            outcome: 1,
            ..Answer::default()
        };
    }
    let reading = read(text);
    write(program, &reading.words);
    write(origins, &reading.origins);
    write(names, &reading.names);
    Answer {
        outcome: reading.outcome,
        place: reading.place,
        variables: reading.variables,
        labels: reading.labels,
        words: reading.words.len(),
    }
}

fn write(lent: &mut [i32], words: &[i32]) {
    for (lent, word) in lent.iter_mut().zip(words) {
        *lent = *word;
    }
}
