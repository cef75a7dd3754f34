//! Pieces further inside a statement: under operators, behind other parts.

use super::numbers::Numbers;

/// A faulty expression under up to three operators. It is met before their
/// kinds are tested, so that any operators and leaves will do.
pub fn under_operators(numbers: &mut Numbers, faulty: &[i32]) -> Vec<i32> {
    let mut words = faulty.to_vec();
    for _ in 0..numbers.below(4) {
        let operator = numbers.between(1, 11);
        let leaf = numbers.pick(&[&[20][..], &[22], &[23, 7]]);
        words = joined(numbers, operator, leaf.unwrap_or(&[20]), &words);
    }
    words
}

/// A boolean expression under up to two operators that leave its truth.
pub fn under_truths(numbers: &mut Numbers, boolean: &[i32]) -> Vec<i32> {
    let mut words = boolean.to_vec();
    for _ in 0..numbers.below(3) {
        let (operator, leaf) = match numbers.chance(50) {
            true => (10, 22),
            false => (11, 21),
        };
        words = joined(numbers, operator, &[leaf], &words);
    }
    words
}

/// The leaf is the left operand or the right one.
pub fn joined(numbers: &mut Numbers, operator: i32, leaf: &[i32], other: &[i32]) -> Vec<i32> {
    match numbers.chance(50) {
        true => [&[25, operator][..], leaf, other].concat(),
        false => [&[25, operator][..], other, leaf].concat(),
    }
}

/// A whole C: up to five parts that hold, and a last one.
pub fn behind_parts(numbers: &mut Numbers, last: &[i32]) -> Vec<i32> {
    let before = numbers.below(6);
    let mut words = vec![1 + i32::try_from(before).unwrap_or(0)];
    for _ in 0..before {
        words.extend([numbers.between(1, 3), 22]);
    }
    words.push(numbers.between(1, 3));
    words.extend(last);
    words
}

/// A statement that evaluates a faulty expression outside C.
pub fn evaluating(numbers: &mut Numbers, faulty: &[i32]) -> Vec<i32> {
    let faulty = under_operators(numbers, faulty);
    match numbers.below(6) {
        0 => [&[1, 0, 0][..], &faulty].concat(),
        1 => [&[1, 60, 1, 0][..], &faulty].concat(),
        2 => [&[2, 1, 1, 4][..], &faulty].concat(),
        3 => [&[2, 1, 3, 3, 20, 4][..], &faulty, &[5, 22]].concat(),
        4 => [&[7][..], &faulty, &[0, 0]].concat(),
        _ => [&[8][..], &faulty, &[0]].concat(),
    }
}

/// A statement that meets a faulty expression, in C or outside it.
pub fn meeting(numbers: &mut Numbers, faulty: &[i32]) -> Vec<i32> {
    if numbers.chance(75) {
        return evaluating(numbers, faulty);
    }
    let faulty = under_operators(numbers, faulty);
    let sort = numbers.between(3, 4);
    [&[sort][..], &behind_parts(numbers, &faulty)].concat()
}
