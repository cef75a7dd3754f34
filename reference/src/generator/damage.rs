//! Sheets with something in them spoilt.

use super::numbers::Numbers;
use crate::batch::Sheet;

fn changed_word(numbers: &mut Numbers, word: i32) -> i32 {
    match numbers.below(5) {
        0 => word.wrapping_add(1),
        1 => word.wrapping_sub(1),
        2 => numbers.extreme(),
        _ => numbers.word(),
    }
}

fn change(numbers: &mut Numbers, words: &mut [i32], most: usize) {
    let place = numbers.below(words.len().min(most));
    if let Some(word) = words.get_mut(place) {
        *word = changed_word(numbers, *word);
    }
}

/// Changes, swaps, cuts, lengthens, drops or adds words of a list.
pub fn spoil_list(numbers: &mut Numbers, words: &mut Vec<i32>) {
    let (first, second) = (numbers.below(words.len()), numbers.below(words.len()));
    match numbers.below(9) {
        0 => words.truncate(first),
        1 => words.extend((0..3).map(|_| numbers.word())),
        2 if !words.is_empty() => words.swap(first, second),
        3 if !words.is_empty() => {
            words.remove(first);
        }
        4 => words.insert(first, numbers.word()),
        _ => change(numbers, words, usize::MAX),
    }
}

fn spoil_length(numbers: &mut Numbers, table: &mut Vec<i32>) {
    match numbers.below(4) {
        0 => table.clear(),
        1 => table.push(0),
        2 => table.truncate(numbers.below(table.len())),
        _ => {
            table.pop();
        }
    }
}

/// Gives one of the tables another length.
pub fn spoil_lengths(numbers: &mut Numbers, sheet: &mut Sheet) {
    match numbers.below(3) {
        0 => spoil_length(numbers, &mut sheet.environment),
        1 => spoil_length(numbers, &mut sheet.heap),
        _ => spoil_length(numbers, &mut sheet.constraints),
    }
}

/// How many words at the front of a heap are of interest.
fn used_heap(heap: &[i32]) -> usize {
    let last = heap.iter().rposition(|word| *word != 0);
    last.map_or(3, |place| place + 5)
}

fn spoil_heap(numbers: &mut Numbers, heap: &mut [i32]) {
    let used = used_heap(heap);
    let most = if numbers.chance(90) { used } else { heap.len() };
    change(numbers, heap, most);
}

/// Gives a reference a number about the count word, itself changed or not.
fn spoil_reference(numbers: &mut Numbers, sheet: &mut Sheet) {
    if let (Some(count), true) = (sheet.heap.first_mut(), numbers.chance(30)) {
        *count = numbers.one_of(&[65, 100, -1, i32::MAX, i32::MIN]);
    }
    let count = sheet.heap.first().copied().unwrap_or(0);
    let payload = numbers.one_of(&[count, count, -1, count.wrapping_sub(1)]);
    let pair = match numbers.chance(50) {
        true => sheet
            .environment
            .chunks_mut(2)
            .find(|cell| is_reference(cell)),
        false => sheet.heap.get_mut(3..).and_then(|rest| {
            let fields = rest.chunks_mut(25).flat_map(|record| record.chunks_mut(3));
            let mut references = fields.filter(|cell| is_reference(cell));
            references.nth(numbers.below(3))
        }),
    };
    if let Some(word) = pair.and_then(|pair| pair.get_mut(1)) {
        *word = payload;
    }
}

fn is_reference(words: &[i32]) -> bool {
    words.first() == Some(&4)
}

/// Makes two labels of a record, or two kept positions, the same.
fn spoil_twice(numbers: &mut Numbers, sheet: &mut Sheet) {
    if numbers.chance(50) {
        let records = sheet.heap.get_mut(1..).unwrap_or(&mut []);
        let mut wide = records
            .chunks_mut(25)
            .filter(|record| record.first() >= Some(&2));
        if let Some([_, first, _, _, second, ..]) = wide.next() {
            *second = *first;
        }
        return;
    }
    let (counts, positions) = match sheet.constraints.split_at_mut_checked(2) {
        Some(halves) => halves,
        None => return,
    };
    let sort = numbers.below(2);
    let from = 64 * sort;
    if let Some(count @ 1..=31) = counts.get_mut(sort) {
        let first = positions.get(from).copied().unwrap_or(0);
        let next = usize::try_from(*count).unwrap_or(0);
        if let Some(word) = positions.get_mut(from + next) {
            *word = first;
            *count += 1;
        }
    }
}

/// Spoils kept positions: counts, used words or the words behind them.
fn spoil_constraints(numbers: &mut Numbers, constraints: &mut [i32]) {
    let place = match numbers.below(4) {
        0 => numbers.below(2),
        1 => 2 + numbers.below(4),
        2 => 66 + numbers.below(4),
        _ => numbers.below(constraints.len()),
    };
    if let Some(word) = constraints.get_mut(place) {
        *word = changed_word(numbers, *word);
    }
}

pub fn spoil(numbers: &mut Numbers, sheet: &mut Sheet) {
    match numbers.below(25) {
        0..=6 => spoil_list(numbers, &mut sheet.program),
        7 | 8 => change(numbers, &mut sheet.environment, 16),
        9..=11 => spoil_heap(numbers, &mut sheet.heap),
        12 | 13 => spoil_constraints(numbers, &mut sheet.constraints),
        14 | 15 => spoil_lengths(numbers, sheet),
        16 => sheet.budget = numbers.one_of(&[-1, 1_000_001, i32::MIN, i32::MAX, 0, 1]),
        17..=20 => spoil_list(numbers, &mut sheet.proposals),
        21 | 22 => spoil_reference(numbers, sheet),
        _ => spoil_twice(numbers, sheet),
    }
}

/// Words without any plan.
pub fn random_words(numbers: &mut Numbers) -> Sheet {
    let mut list = |most: usize| -> Vec<i32> {
        let count = numbers.below(most);
        (0..count).map(|_| numbers.word()).collect()
    };
    let (program, proposals) = (list(60), list(20));
    let mut sheet = Sheet::fresh(program, proposals, 0);
    if numbers.chance(50) {
        let count = i32::try_from(sheet.program.len()).unwrap_or(0);
        let first = numbers.between(0, count.min(4));
        sheet.program.splice(0..0, [first]);
    }
    for _ in 0..numbers.below(4) {
        spoil(numbers, &mut sheet);
    }
    sheet.budget = numbers.between(-1, 300);
    sheet
}
