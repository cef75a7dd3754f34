//! What is counted of the places inside statements.

mod common;
use common::*;
use reference::batch::Sheet;
use reference::places::Places;

/// Later parts, right operands, paths under operators, tests of while, later
/// kept constraints.
type Sorts = [u64; 5];

fn counted(sheet: &Sheet) -> Places {
    let mut places = Places::default();
    places.count(sheet, &sheet.answer());
    places
}

fn check_sorts(statements: &[&[i32]], outcomes: [u64; 4], sorts: Sorts) {
    let sheet = fresh(&block(statements), &[0; 9]);
    let places = counted(&sheet);
    assert_eq!(
        (places.outcomes, places.sorts),
        (outcomes, sorts),
        "{sheet:?}"
    );
}

const SEVEN: [u64; 4] = [1, 0, 0, 0];
const EIGHT: [u64; 4] = [0, 1, 0, 0];
const NINE: [u64; 4] = [0, 0, 1, 0];
const FIFTEEN: [u64; 4] = [0, 0, 0, 1];

#[test]
fn operands() {
    check_sorts(&[&[1, 0, 0, 24, 9, 0]], SEVEN, [0; 5]);
    check_sorts(&[&[1, 9, 1, 0, 20]], SEVEN, [0; 5]);
    let right = [1, 0, 0, 25, 1, 23, 1, 24, 9, 0];
    check_sorts(&[&right], SEVEN, [0, 1, 1, 0, 0]);
    let left = [1, 0, 0, 25, 1, 24, 9, 0, 23, 1];
    check_sorts(&[&left], SEVEN, [0, 0, 1, 0, 0]);
    let side = [2, 0, 2, 1, 20, 2, 25, 10, 22, 26, 9, 0, 9, 0];
    check_sorts(&[&side], SEVEN, [0, 1, 1, 0, 0]);
    let sum = [25, 1, 23, i32::MAX, 23, 1];
    let inner = [&[1, 0, 0, 25, 1, 23, 1][..], &sum].concat();
    check_sorts(&[&inner], NINE, [0, 1, 0, 0, 0]);
    let outer = [&[1, 0, 0, 25, 1][..], &sum, &[23, 1]].concat();
    check_sorts(&[&outer], NINE, [0; 5]);
}

#[test]
fn parts() {
    check_sorts(&[&[4, 2, 1, 23, 1, 1, 22]], EIGHT, [0; 5]);
    check_sorts(&[&[4, 2, 1, 22, 1, 23, 1]], EIGHT, [1, 0, 0, 0, 0]);
    let second = [4, 2, 1, 22, 1, 25, 6, 23, 1, 24, 9, 0];
    check_sorts(&[&second], SEVEN, [1, 1, 1, 0, 0]);
}

/// A fault in the body of a while is not one in its test.
#[test]
fn tests_of_while() {
    check_sorts(&[&[7, 20, 0, 0]], EIGHT, [0; 5]);
    check_sorts(&[&[8, 20, 0]], EIGHT, [0, 0, 0, 1, 0]);
    check_sorts(&[&[8, 22, 1, 1, 0, 0, 24, 9, 0]], SEVEN, [0; 5]);
    check_sorts(&[&[7, 21, 0, 1, 8, 20, 0]], EIGHT, [0, 0, 0, 1, 0]);
}

#[test]
fn kept_constraints() {
    let made: &[i32] = &[1, 0, 0, 22];
    let kept: &[i32] = &[3, 2, 1, 22, 1, 24, 0, 0];
    let lost: &[i32] = &[1, 0, 0, 23, 5];
    check_sorts(&[made, kept, lost], FIFTEEN, [1, 0, 0, 0, 0]);
    let other: &[i32] = &[3, 1, 1, 22];
    check_sorts(&[made, other, kept, lost], FIFTEEN, [1, 0, 0, 0, 1]);
}

#[test]
fn other_outcomes_are_not_counted() {
    check_sorts(&[&[4, 1, 3, 21]], [0; 4], [0; 5]);
    let mut all = Places::default();
    let sheet = fresh(&block(&[&[1, 0, 0, 24, 9, 0]]), &[0]);
    all.add(&counted(&sheet));
    all.add(&counted(&sheet));
    assert_eq!(all.outcomes, [2, 0, 0, 0]);
    assert!(!all.are_met(0));
}
