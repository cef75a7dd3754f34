//! Lists of words with something changed in them.

use reference::generator::numbers::Numbers;

/// A word at random: small numbers and the numbers of forms mostly.
pub fn word(numbers: &mut Numbers) -> i32 {
    match numbers.below(10) {
        0 => numbers.word(),
        1 => numbers.between(20, 26),
        2 | 3 => numbers.between(0, 8),
        4 => numbers.one_of(&[-1, 7, 8, 9, 11, 12, 15, 16, 17, 31, 32, 63, 64, 255, 256]),
        _ => numbers.between(0, 3),
    }
}

/// Changes a word, cuts, lengthens, swaps two words, drops or adds one, or
/// puts in an extreme number.
pub fn damage(numbers: &mut Numbers, words: &mut Vec<i32>) {
    let (first, second) = (numbers.below(words.len()), numbers.below(words.len()));
    if words.is_empty() {
        words.push(word(numbers));
        return;
    }
    match numbers.below(16) {
        0 => words.truncate(first),
        1 => words.extend((0..=numbers.below(3)).map(|_| word(numbers))),
        2 | 3 => words.swap(first, second),
        4 => drop(words.remove(first)),
        5 => words.insert(first, word(numbers)),
        6 | 7 => put(words, first, numbers.extreme()),
        8..=11 => nudge(numbers, words, first),
        _ => put(words, first, word(numbers)),
    }
}

fn put(words: &mut [i32], place: usize, word: i32) {
    if let Some(slot) = words.get_mut(place) {
        *slot = word;
    }
}

fn nudge(numbers: &mut Numbers, words: &mut [i32], place: usize) {
    if let Some(slot) = words.get_mut(place) {
        *slot = slot.wrapping_add(numbers.one_of(&[-1, 1]));
    }
}
