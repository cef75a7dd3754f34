//! Names that cannot be written.

use super::tables::{default_name, small, used, Table, SLOTS};
use crate::generator::numbers::Numbers;
use crate::text::{KEYWORDS, VARIABLES};

/// Bytes that begin no name, and such as no name has.
const NOT_FIRST: &[u8] = b"AZ019_?-. {\x00\xc3\xff";
const NOT_INSIDE: &[u8] = b"-. \n{}/?\x00\x7f\xa9\xff@[`:";

/// Gives a number a name at fault, or the name of another, mostly.
pub fn spoil(numbers: &mut Numbers, table: &mut Table, program: &[i32]) {
    let used = used(program);
    let slot = any_slot(numbers, &used, 70);
    match numbers.below(15) {
        0..=2 => spelled(numbers, table, slot),
        3 => question_mark(numbers, table, slot),
        4 => {
            let keyword = numbers.pick(&KEYWORDS).unwrap_or("new");
            table.give(numbers, slot, keyword.as_bytes());
        }
        5 | 6 => outside(numbers, table, slot),
        7 => {
            let place = numbers.below(table.source.len());
            let length = numbers.one_of(&[-1, -1, -2, i32::MIN, -65_536]);
            table.set(slot, small(place), length);
        }
        8..=11 => twice(numbers, table, slot, &used),
        12 | 13 => default_of_another(numbers, table, slot, &used),
        _ => {
            let (place, length) = (numbers.extreme(), numbers.extreme());
            table.set(slot, place, length);
        }
    }
}

/// A slot in use so many times in a hundred, and otherwise any.
fn any_slot(numbers: &mut Numbers, used: &[usize], percent: usize) -> usize {
    let slot = numbers.pick(used);
    let any = numbers.below(SLOTS);
    match numbers.chance(percent) {
        true => slot.unwrap_or(any),
        false => any,
    }
}

/// Another slot of the same sort, used or not.
fn of_sort(numbers: &mut Numbers, slot: usize, used: &[usize]) -> usize {
    let is_label = slot >= VARIABLES;
    let all = used.iter().filter(|s| (**s >= VARIABLES) == is_label);
    let others: Vec<usize> = all.copied().filter(|other| *other != slot).collect();
    let any = match is_label {
        true => VARIABLES + numbers.below(SLOTS - VARIABLES),
        false => numbers.below(VARIABLES),
    };
    match numbers.chance(75) {
        true => numbers.pick(&others).unwrap_or(any),
        false => any,
    }
}

/// A name with a byte in it that may not stand there.
fn spelled(numbers: &mut Numbers, table: &mut Table, slot: usize) {
    let mut name = table.name(slot);
    if numbers.chance(40) {
        name.splice(0..1, numbers.pick(NOT_FIRST));
    } else {
        let place = 1 + numbers.below(name.len());
        let wrong = numbers.pick(NOT_INSIDE);
        name.splice(place..place, wrong);
        if numbers.chance(50) {
            name.push(b'a');
        }
    }
    table.give(numbers, slot, &name);
}

/// `?` before another byte, or twice at the end.
fn question_mark(numbers: &mut Numbers, table: &mut Table, slot: usize) {
    let mut name = table.name(slot);
    match numbers.chance(50) {
        true => name.extend(b"??"),
        false => name.extend([b'?', numbers.pick(b"ab_9Z").unwrap_or(b'a')]),
    }
    table.give(numbers, slot, &name);
}

/// A name before the source, or one that ends just past it or far from it.
fn outside(numbers: &mut Numbers, table: &mut Table, slot: usize) {
    let name = table.name(slot);
    let most = small(table.source.len());
    let (place, length) = match numbers.below(6) {
        0 => (
            numbers.one_of(&[-1, -1, -7, i32::MIN]),
            numbers.between(1, 9),
        ),
        1 => (most, 1),
        2 => (most + numbers.between(1, 9), numbers.between(1, 9)),
        3 => (numbers.between(0, most), i32::MAX),
        4 => (i32::MAX, numbers.one_of(&[1, i32::MAX])),
        _ => {
            let place = table.source.len();
            table.source.extend(&name);
            (small(place), small(name.len()) + numbers.between(1, 2))
        }
    };
    table.set(slot, place, length);
}

/// The name of another number, at its place or elsewhere in the source.
fn twice(numbers: &mut Numbers, table: &mut Table, slot: usize, used: &[usize]) {
    let other = of_sort(numbers, slot, used);
    let (place, length) = table.pair(other);
    match length > 0 && numbers.chance(40) {
        true => table.set(slot, place, length),
        false => {
            let name = table.name(other);
            table.give(numbers, slot, &name);
        }
    }
}

/// As `v3` for number 1: at fault where 3 has no other name.
fn default_of_another(numbers: &mut Numbers, table: &mut Table, slot: usize, used: &[usize]) {
    let other = of_sort(numbers, slot, used);
    if numbers.chance(60) {
        table.set(other, 0, 0);
    }
    table.give(numbers, slot, &default_name(other));
}
