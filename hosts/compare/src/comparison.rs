//! Both answers for the lists of a seed.

use crate::independent::{self, Held};
use crate::lists::{List, Lists};
use crate::proved::{Proved, Question};
use crate::tables;
use reference::generator::numbers::Numbers;
use std::collections::BTreeSet;
use std::fmt;
use std::io;

/// In a program of more words than this, this many are asked about.
const MOST_PLACES: usize = 64;

/// How much was compared, all of it the same.
#[derive(Debug, Default)]
pub struct Tally {
    pub lists: u64,
    pub read: u64,
    pub refused: u64,
    pub places: BTreeSet<usize>,
    pub words: usize,
    pub statements: usize,
    pub tables: usize,
    pub fit: usize,
}

#[derive(Debug)]
pub enum Stop {
    Difference(String),
    /// All was the same, and too little of it came up.
    Rare(String),
    Failure(io::Error),
}

impl From<io::Error> for Stop {
    fn from(error: io::Error) -> Stop {
        Stop::Failure(error)
    }
}

pub fn compare(seed: u64, count: u64) -> Result<Tally, Stop> {
    let lists = Lists::new(seed);
    let mut proved = Proved::start()?;
    let mut tally = Tally::default();
    for index in 0..count {
        let mut numbers = Numbers::new(seed ^ 0x706C_6163, index);
        compare_list(&mut proved, &mut tally, &mut numbers, lists.list(index))?;
    }
    Ok(tally)
}

fn compare_list(
    proved: &mut Proved,
    tally: &mut Tally,
    numbers: &mut Numbers,
    list: List,
) -> Result<(), Stop> {
    let read = independent::read(&list.words);
    let question = question(numbers, &read, list);
    let independent = independent::answer(&read, &question);
    let answer = proved.ask_reader(&question)?;
    if answer != independent {
        return Err(Stop::Difference(format!(
            "{question:?}\nproved: {answer:?}\nindependent: {independent:?}"
        )));
    }
    tally.lists += 1;
    match read {
        Ok(_) => tally.read += 1,
        Err(place) => {
            tally.refused += 1;
            tally.places.insert(place);
        }
    }
    tally.words += answer.statements.len();
    tally.statements += answer.statements.iter().filter(|n| **n > 0).count();
    tally.tables += answer.tables.len();
    tally.fit += answer.tables.iter().filter(|n| **n > 0).count();
    Ok(())
}

/// Words and tables are asked about only where the program reads.
fn question(numbers: &mut Numbers, read: &Result<Held, usize>, list: List) -> Question {
    let (places, tables) = match read {
        Ok(held) => (
            places(numbers, held, list.words.len()),
            tables::tables(numbers, held, list.constraints),
        ),
        Err(_) => (Vec::new(), Vec::new()),
    };
    Question {
        program: list.words,
        places,
        tables,
    }
}

/// Every word, or some with as many statements as others among them; and
/// three places past the end.
fn places(numbers: &mut Numbers, held: &Held, count: usize) -> Vec<usize> {
    let mut places: Vec<usize> = if count <= MOST_PLACES {
        (0..count).collect()
    } else {
        let statements: Vec<usize> = held.statements.keys().copied().collect();
        (0..MOST_PLACES)
            .map(|number| match number % 2 {
                0 => numbers.below(count),
                _ => numbers.pick(&statements).unwrap_or(0),
            })
            .collect()
    };
    places.extend([count, count + 1, usize::MAX]);
    places
}

impl fmt::Display for Tally {
    fn fmt(&self, out: &mut fmt::Formatter<'_>) -> fmt::Result {
        write!(
            out,
            "{} lists the same: {} read, {} refused at {} places; {} words, {} of them statements; {} tables, {} of them fit",
            self.lists,
            self.read,
            self.refused,
            self.places.len(),
            self.words,
            self.statements,
            self.tables,
            self.fit
        )
    }
}
