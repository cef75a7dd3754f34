//! Lists for comparing two programs: a seed and a number give a list.

pub(super) mod asked;
mod draft;
mod files;
mod program;
mod unfit;
mod wishes;

use super::again::{rearrange, spoil_start};
use super::damage::{spoil, spoil_lengths, spoil_list};
use super::draft::Draft;
use super::limits;
use super::numbers::Numbers;
use crate::batch::List;
use crate::causes::Causes;
use crate::outcome::Outcome;
use draft::ListDraft;
pub use program::{as_program, moved, MOVED};

/// The list of a seed and number, the same on every machine.
pub fn list(seed: u64, index: u64) -> List {
    let mut numbers = Numbers::new(seed, index);
    match numbers.below(100) {
        0..=27 => accepted(numbers),
        28 | 29 => at_limits(numbers),
        30 | 31 => hundreds(numbers),
        32..=61 => wished(numbers),
        62..=76 => unfit::list(ready(numbers)),
        77..=88 => damaged(numbers),
        89..=93 => unfit_start(numbers),
        94 | 95 => other_entries(numbers),
        96 | 97 => random_words(numbers),
        _ => extreme(numbers),
    }
}

/// A draft whose program has been run, most often with constraints kept.
pub(super) fn ready(numbers: Numbers) -> Draft {
    let mut draft = super::draft(numbers);
    match draft.numbers.below(10) {
        0 => {}
        1..=4 => files::keep(&mut draft),
        5 | 6 => families(&mut draft),
        _ => grown(&mut draft),
    }
    rearrange(&mut draft.numbers, &mut draft.tables.values);
    rearrange(&mut draft.numbers, &mut draft.tables.identities);
    draft
}

fn grown(draft: &mut Draft) {
    let count = 2 + draft.numbers.below(10);
    draft.grow(count);
    while draft.tables.values.is_empty() && draft.numbers.chance(90) {
        draft.grow(2);
    }
}

/// Cells tied to each other, among others.
fn families(draft: &mut Draft) {
    for _ in 0..=draft.numbers.below(2) {
        let words = draft.composer().family();
        let _ = draft.attempt(&words);
    }
    let count = draft.numbers.below(6);
    draft.grow(count);
}

/// None, one or a few entries, all of them accepted.
fn accepted(numbers: Numbers) -> List {
    let mut list = ListDraft::new(ready(numbers));
    let count = match list.numbers().below(12) {
        0 => 0,
        1 | 2 => 1,
        _ => 2 + list.numbers().below(14),
    };
    list.grow(count);
    list.list()
}

/// As many entries as a client sets in a morning.
fn hundreds(numbers: Numbers) -> List {
    let mut draft = super::draft(numbers);
    files::keep(&mut draft);
    let mut list = ListDraft::new(draft);
    let count = 100 + list.numbers().below(301);
    list.grow(count);
    list.list()
}

fn wished(mut numbers: Numbers) -> List {
    let refusals = Outcome::OF_LISTS.get(5..15).unwrap_or(&[]);
    let outcome = numbers.pick(refusals).unwrap_or(Outcome::Finished);
    wishes::wished(ready(numbers), outcome)
}

fn damaged(mut numbers: Numbers) -> List {
    let mut list = accepted(Numbers::new(numbers.next(), 2));
    match numbers.below(10) {
        0 => spoil_lengths(&mut numbers, &mut list.sheet),
        1 | 2 => spoil_list(&mut numbers, &mut list.entries),
        _ => spoil(&mut numbers, &mut list.sheet),
    }
    list
}

/// Start tables in which a kept constraint fails, if that can be had.
fn unfit_start(mut numbers: Numbers) -> List {
    let mut list = accepted(Numbers::new(numbers.next(), 3));
    spoil_start(&mut numbers, &mut list.sheet);
    list
}

/// A program or tables at a limit of document 01, or past it.
fn at_limits(mut numbers: Numbers) -> List {
    let sheet = limits::sheet(&mut numbers);
    let entries = accepted(Numbers::new(numbers.next(), 7)).entries;
    List { sheet, entries }
}

/// The state and proposals of one list with the entries of another.
fn other_entries(mut numbers: Numbers) -> List {
    let mut list = accepted(Numbers::new(numbers.next(), 4));
    list.entries = accepted(Numbers::new(numbers.next(), 5)).entries;
    list
}

/// Entries without any plan.
fn random_words(mut numbers: Numbers) -> List {
    let mut list = accepted(Numbers::new(numbers.next(), 6));
    let count = 1 + numbers.below(30);
    list.entries = (0..count).map(|_| numbers.word()).collect();
    list
}

/// Programs, tables and entries full of extreme numbers.
fn extreme(mut numbers: Numbers) -> List {
    numbers.extremes = 50;
    accepted(numbers)
}

/// How often each outcome of `Outcome::OF_LISTS` comes up among the first
/// lists of a seed, and each cause of 23.
pub fn histogram(seed: u64, count: u64) -> ([u64; Outcome::OF_LISTS.len()], Causes) {
    let numbers = Outcome::OF_LISTS.map(Outcome::number);
    let (mut counts, mut causes) = ([0; Outcome::OF_LISTS.len()], Causes::default());
    for index in 0..count {
        let list = list(seed, index);
        let finish = list.answer();
        let all = numbers.iter().zip(&mut counts);
        for (_, count) in all.filter(|(own, _)| **own == finish.answer.outcome) {
            *count += 1;
        }
        causes.count(&list, &finish);
    }
    (counts, causes)
}
