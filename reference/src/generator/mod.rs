//! Sheets, lists, texts, writings and askings for comparing two programs: a seed
//! and a number give one.

mod again;
pub mod askings;
mod blocks;
mod compose;
mod damage;
mod draft;
mod inside;
mod limits;
pub mod lists;
pub mod numbers;
mod search;
mod solve;
mod start;
mod states;
pub mod texts;
mod wishes;
pub mod writings;

use crate::batch::Sheet;
use crate::counts::Counts;
use crate::outcome::Outcome;
pub use askings::asking;
use draft::Draft;
pub use lists::{as_program, list};
use numbers::Numbers;

/// The sheet of a seed and number, the same on every machine.
pub fn sheet(seed: u64, index: u64) -> Sheet {
    let mut numbers = Numbers::new(seed, index);
    match numbers.below(100) {
        0..=27 => finished(numbers),
        28..=61 => wished(numbers),
        62..=75 => damaged(numbers),
        76..=87 => again::again(draft(numbers)),
        88..=94 => limits::sheet(&mut numbers),
        95..=96 => damage::random_words(&mut numbers),
        _ => extreme(numbers),
    }
}

fn draft(mut numbers: Numbers) -> Draft {
    let start = start::usual(&mut numbers);
    Draft::new(numbers, start)
}

/// A program of which every statement is accepted.
fn finished(numbers: Numbers) -> Sheet {
    let mut draft = draft(numbers);
    let count = 2 + draft.numbers.below(22);
    draft.grow(count);
    draft.sheet()
}

/// Those by which unlike kinds are refused are wished for twice as often.
fn wished(mut numbers: Numbers) -> Sheet {
    let outcomes = Outcome::ALL.get(5..).unwrap_or(&[]);
    let outcomes = [outcomes, &[Outcome::WrongKind, Outcome::LostConstraint]].concat();
    let outcome = numbers.pick(&outcomes).unwrap_or(Outcome::Finished);
    wishes::wished(draft(numbers), outcome)
}

fn damaged(mut numbers: Numbers) -> Sheet {
    let own = Numbers::new(numbers.next(), 2);
    let mut sheet = match numbers.below(3) {
        0 => again::again(draft(own)),
        _ => finished(own),
    };
    damage::spoil(&mut numbers, &mut sheet);
    sheet
}

/// Programs and tables full of extreme numbers.
fn extreme(mut numbers: Numbers) -> Sheet {
    numbers.extremes = 50;
    finished(numbers)
}

/// How often each outcome comes up among the first sheets of a seed, and what
/// else is counted of them.
pub fn histogram(seed: u64, count: u64) -> ([u64; 20], Counts) {
    let (mut outcomes, mut counts) = ([0; 20], Counts::default());
    for index in 0..count {
        let sheet = sheet(seed, index);
        let finish = sheet.answer();
        let outcome = usize::try_from(finish.answer.outcome).unwrap_or(0);
        if let Some(count) = outcomes.get_mut(outcome) {
            *count += 1;
        }
        counts.count(&sheet, &finish);
    }
    (outcomes, counts)
}
