//! Texts with something in them spoilt, and texts without any plan.

use crate::generator::numbers::Numbers;

/// Tokens, and bytes that begin none.
const VOCABULARY: [&str; 58] = [
    "new",
    "skip",
    "always",
    "once",
    "weak",
    "medium",
    "required",
    "if",
    "then",
    "else",
    "while",
    "do",
    "true",
    "false",
    "nil",
    "and",
    "or",
    ":=",
    ":",
    ",",
    ".",
    ";",
    "{",
    "}",
    "(",
    ")",
    "+",
    "-",
    "*",
    "<",
    "<=",
    "=",
    "!=",
    ">=",
    ">",
    "==",
    "/\\",
    "x",
    "y",
    "if?",
    "news",
    "bytes",
    "0",
    "7",
    "-5",
    "- 5",
    "2147483647",
    "2147483648",
    "-2147483649",
    "!",
    "/",
    "\\",
    "X",
    "_",
    "?",
    "\"",
    "#",
    "\u{e9}",
];

/// Bytes that are likely in a text.
const LIKELY: &[u8] = b"abxyz019_?:=,.;{}()+-*<>!/\\ \n\t\r";

fn byte(numbers: &mut Numbers) -> u8 {
    match numbers.below(4) {
        0 => numbers.below(256) as u8,
        _ => numbers.pick(LIKELY).unwrap_or(b' '),
    }
}

/// One of the last places of a list.
fn late(numbers: &mut Numbers, length: usize, last: usize) -> usize {
    let back = numbers.below(length.min(last));
    length.saturating_sub(1 + back)
}

/// A byte changed, left out, doubled, put in or swapped, or all cut off, among
/// so many last ones.
pub fn spoil_bytes(numbers: &mut Numbers, text: &mut Vec<u8>, last: usize) {
    let place = late(numbers, text.len(), last);
    let there = text.get(place).copied();
    let next = (place + 1).min(text.len().saturating_sub(1));
    match (numbers.below(8), there) {
        (0, _) => text.truncate(place),
        (1 | 2, Some(_)) => {
            text.remove(place);
        }
        (3, Some(there)) => text.insert(place, there),
        (4, Some(_)) => text.swap(place, next),
        (5 | 6, Some(_)) => {
            let new = byte(numbers);
            text.splice(place..place + 1, [new]);
        }
        _ => text.insert(place, byte(numbers)),
    }
}

pub fn any_token(numbers: &mut Numbers) -> Vec<u8> {
    let token = numbers.pick(&VOCABULARY).unwrap_or("x");
    token.as_bytes().to_vec()
}

/// A token left out, doubled, swapped, put in or put in another's place, among
/// so many last ones.
pub fn spoil_tokens(numbers: &mut Numbers, tokens: &mut Vec<Vec<u8>>, last: usize) {
    let place = late(numbers, tokens.len(), last);
    let there = tokens.get(place).cloned();
    let next = (place + 1).min(tokens.len().saturating_sub(1));
    match (numbers.below(7), there) {
        (0, Some(_)) => {
            tokens.remove(place);
        }
        (1, Some(there)) => tokens.insert(place, there),
        (2, Some(_)) => tokens.swap(place, next),
        (3, Some(_)) => {
            let other = numbers.below(tokens.len());
            tokens.swap(place, other);
        }
        (4 | 5, Some(_)) => {
            let new = any_token(numbers);
            tokens.splice(place..place + 1, [new]);
        }
        _ => tokens.insert(place, any_token(numbers)),
    }
}

pub fn random_bytes(numbers: &mut Numbers) -> Vec<u8> {
    let count = numbers.below(60);
    match numbers.chance(50) {
        true => (0..count).map(|_| numbers.below(256) as u8).collect(),
        false => (0..count).filter_map(|_| numbers.pick(LIKELY)).collect(),
    }
}

pub fn random_tokens(numbers: &mut Numbers) -> Vec<Vec<u8>> {
    let count = numbers.below(40);
    (0..count).map(|_| any_token(numbers)).collect()
}
