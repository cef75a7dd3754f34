//! The lists of a seed, the same on every machine.

use crate::damage::{damage, word};
use crate::grown;
use crate::limits::{self, Limit};
use reference::generator::{self, numbers::Numbers};

/// A list of words, and the constraints table that came with it.
pub struct List {
    pub words: Vec<i32>,
    pub constraints: Option<Vec<i32>>,
}

pub struct Lists {
    seed: u64,
    limits: Vec<Limit>,
}

impl Lists {
    pub fn new(seed: u64) -> Lists {
        Lists {
            seed,
            limits: limits::all(),
        }
    }

    /// The limit lists come first, as they are.
    pub fn list(&self, index: u64) -> List {
        let first = usize::try_from(index).unwrap_or(usize::MAX);
        if let Some(limit) = self.limits.get(first) {
            return plain(limit.words.clone());
        }
        let mut numbers = Numbers::new(self.seed ^ 0x6C69_7374, index);
        let mut list = self.undamaged(&mut numbers, index);
        let damages = match numbers.below(5) {
            0..=2 => 0,
            3 => 1,
            _ => 1 + numbers.below(3),
        };
        for _ in 0..damages {
            damage(&mut numbers, &mut list.words);
        }
        list
    }

    fn undamaged(&self, numbers: &mut Numbers, index: u64) -> List {
        match numbers.below(20) {
            0..=8 => {
                let sheet = generator::sheet(self.seed, index);
                List {
                    words: sheet.program,
                    constraints: Some(sheet.constraints),
                }
            }
            9..=15 => plain(grown::program(numbers)),
            16 => {
                let limit = self.limits.get(numbers.below(self.limits.len()));
                plain(limit.map_or_else(Vec::new, |limit| limit.words.clone()))
            }
            _ => plain(random(numbers)),
        }
    }
}

fn plain(words: Vec<i32>) -> List {
    List {
        words,
        constraints: None,
    }
}

fn random(numbers: &mut Numbers) -> Vec<i32> {
    let count = match numbers.below(3) {
        0 => numbers.below(8),
        1 => numbers.below(30),
        _ => numbers.below(200),
    };
    (0..count).map(|_| word(numbers)).collect()
}
