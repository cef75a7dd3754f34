//! Names as they are written, keywords' likenesses among them.

use crate::generator::numbers::Numbers;
use std::collections::BTreeSet;

const STEMS: [&str; 33] = [
    "x",
    "y",
    "z",
    "p",
    "a",
    "b",
    "bytes",
    "samples",
    "offset",
    "header",
    "news",
    "skip1",
    "always_",
    "once0",
    "weakly",
    "mediumWave",
    "required?",
    "if?",
    "iff",
    "thenX",
    "else_",
    "while9",
    "do_",
    "trueish",
    "false0",
    "nil?",
    "nils",
    "and_",
    "andy",
    "or?",
    "ore",
    "newNew",
    "x_Y9?",
];

/// Spellings of as many variables and labels as there ever are in a text.
#[derive(Clone, Debug)]
pub struct Spelling {
    variables: Vec<Vec<u8>>,
    labels: Vec<Vec<u8>>,
}

impl Spelling {
    pub fn new(numbers: &mut Numbers) -> Spelling {
        Spelling {
            variables: different(numbers, 70),
            labels: different(numbers, 40),
        }
    }

    /// One spelling for all, where only the words are of interest.
    pub fn none() -> Spelling {
        Spelling {
            variables: Vec::new(),
            labels: Vec::new(),
        }
    }

    pub fn variable(&self, number: usize) -> &[u8] {
        self.variables.get(number).map_or(b"v", Vec::as_slice)
    }

    pub fn label(&self, number: usize) -> &[u8] {
        self.labels.get(number).map_or(b"f", Vec::as_slice)
    }
}

fn different(numbers: &mut Numbers, count: usize) -> Vec<Vec<u8>> {
    let mut names = Vec::new();
    let mut known = BTreeSet::new();
    while names.len() < count {
        let name = name(numbers);
        if known.insert(name.clone()) {
            names.push(name);
        }
    }
    names
}

fn name(numbers: &mut Numbers) -> Vec<u8> {
    let stem = numbers.pick(&STEMS).unwrap_or("x");
    let more = match numbers.below(60) {
        0 => numbers.below(300),
        1..=30 => numbers.below(4),
        _ => 0,
    };
    let mut name = stem.as_bytes().to_vec();
    if more > 0 && name.ends_with(b"?") {
        name.pop();
    }
    let bytes = b"abzABZ019_";
    name.extend((0..more).filter_map(|_| numbers.pick(bytes)));
    if numbers.chance(8) && !name.ends_with(b"?") {
        name.push(b'?');
    }
    name
}
