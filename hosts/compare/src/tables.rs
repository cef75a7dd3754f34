//! Constraints tables for a program: fit ones, and damaged ones.

use crate::damage;
use crate::independent::Held;
use reference::generator::numbers::Numbers;
use reference::tables::{CONSTRAINT_WORDS, IDENTITY_POSITIONS, VALUE_POSITIONS};

/// Tables to ask about, from one that the program came with.
pub fn tables(numbers: &mut Numbers, held: &Held, own: Option<Vec<i32>>) -> Vec<Vec<i32>> {
    let own = own.filter(|table| table.len() == CONSTRAINT_WORDS);
    let own = own.unwrap_or_else(|| vec![0; CONSTRAINT_WORDS]);
    let fit = fit(numbers, held);
    let mut tables = vec![own.clone(), fit.clone(), wrong_place(numbers, held, &fit)];
    for table in [own, fit] {
        let twice = again(numbers, &table);
        tables.extend([spoilt(numbers, &table), spoilt(numbers, &table), twice]);
    }
    tables
}

/// Some of the program's always-statements of each sort, in any order.
fn fit(numbers: &mut Numbers, held: &Held) -> Vec<i32> {
    let values: Vec<usize> = held.always.constraints.keys().copied().collect();
    let identities: Vec<usize> = held.always.identities.keys().copied().collect();
    let mut table = vec![0; CONSTRAINT_WORDS];
    for (sort, places, most) in [
        (0, values, VALUE_POSITIONS),
        (1, identities, IDENTITY_POSITIONS),
    ] {
        let chosen = some_of(numbers, places, most);
        put(&mut table, sort, word(chosen.len()));
        for (number, place) in chosen.into_iter().enumerate() {
            put(&mut table, start(sort) + number, word(place));
        }
    }
    table
}

fn some_of(numbers: &mut Numbers, mut places: Vec<usize>, most: usize) -> Vec<usize> {
    for number in 0..places.len() {
        let other = numbers.below(places.len());
        places.swap(number, other);
    }
    let count = match numbers.chance(50) {
        true => places.len(),
        false => numbers.below(places.len() + 1),
    };
    places.truncate(count.min(most));
    places
}

/// The first word of the positions of a sort.
fn start(sort: usize) -> usize {
    2 + sort * VALUE_POSITIONS
}

/// A kept position becomes another statement's, of any sort, or the word
/// beside it.
fn wrong_place(numbers: &mut Numbers, held: &Held, table: &[i32]) -> Vec<i32> {
    let mut table = table.to_vec();
    let place = match used(numbers, &table) {
        Some(place) => place,
        None => add(numbers, &mut table),
    };
    let old = table.get(place).copied().unwrap_or(0);
    let places: Vec<usize> = held.statements.keys().copied().collect();
    let other = numbers.pick(&places).map_or(0, word);
    let beside = numbers.one_of(&[-1, 1]);
    let new = numbers.one_of(&[other, other, old + beside]);
    put(&mut table, place, new);
    table
}

/// A position once more at the end of its sort.
fn again(numbers: &mut Numbers, table: &[i32]) -> Vec<i32> {
    let mut table = table.to_vec();
    let old = used(numbers, &table).and_then(|place| table.get(place).copied());
    let place = add(numbers, &mut table);
    put(&mut table, place, old.unwrap_or(1));
    table
}

/// The word of one of the kept positions.
fn used(numbers: &mut Numbers, table: &[i32]) -> Option<usize> {
    let sort = numbers.below(2);
    let count = table.get(sort).copied().unwrap_or(0);
    let count = usize::try_from(count).ok().filter(|count| *count > 0)?;
    Some(start(sort) + numbers.below(count))
}

/// Counts a position more, and gives its word.
fn add(numbers: &mut Numbers, table: &mut [i32]) -> usize {
    let sort = numbers.below(2);
    let count = table.get(sort).copied().unwrap_or(0);
    put(table, sort, count.wrapping_add(1));
    start(sort) + usize::try_from(count).unwrap_or(0).min(VALUE_POSITIONS)
}

/// A count, a position or a word behind them changed.
fn spoilt(numbers: &mut Numbers, table: &[i32]) -> Vec<i32> {
    let mut table = table.to_vec();
    let place = match numbers.below(4) {
        0 => numbers.below(2),
        1 => start(0) + numbers.below(4),
        2 => start(1) + numbers.below(4),
        _ => numbers.below(CONSTRAINT_WORDS),
    };
    let old = table.get(place).copied().unwrap_or(0);
    let beside = old.wrapping_add(numbers.one_of(&[-1, 1]));
    let edge = numbers.one_of(&[0, 32, 33, 64, 65]);
    let new = match numbers.below(4) {
        0 => beside,
        1 => edge,
        2 => numbers.extreme(),
        _ => damage::word(numbers),
    };
    put(&mut table, place, new);
    table
}

fn word(number: usize) -> i32 {
    i32::try_from(number).unwrap_or(i32::MAX)
}

fn put(table: &mut [i32], place: usize, word: i32) {
    if let Some(slot) = table.get_mut(place) {
        *slot = word;
    }
}
