//! Lists with an entry that is no target and literal.

use super::draft::ListDraft;
use crate::batch::List;
use crate::causes::{Cause, Piece, Wrong};
use crate::generator::compose::{LABEL_NAMES, VARIABLE_NAMES};
use crate::generator::draft::Draft;
use crate::generator::numbers::Numbers;

/// A few entries, one that does not read and, where words are left, some more.
/// Often the budget is used up when its turn comes.
pub fn list(draft: Draft) -> List {
    let mut list = ListDraft::new(draft);
    let count = list.numbers().below(6);
    list.grow(count);
    let cause = list.numbers().pick(&Cause::ALL);
    let cause = cause.unwrap_or(Cause::ALL[0]);
    let words = entry(list.numbers(), cause);
    list.entries.extend(words);
    if cause.wrong != Wrong::Missing {
        list.trail();
    }
    let steps = i32::try_from(list.draft.steps).unwrap_or(0);
    let choice = list.numbers().below(10);
    let mut list = list.list();
    match choice {
        0..=3 => list.sheet.budget = steps,
        4 => list.sheet.budget = (steps - 1).max(0),
        _ => {}
    }
    list
}

/// An entry that does not read, for a cause.
fn entry(numbers: &mut Numbers, cause: Cause) -> Vec<i32> {
    let count = match cause.piece {
        Piece::Label => 1 + numbers.below(7),
        _ => numbers.below(4),
    };
    let mut words = vec![numbers.one_of(&VARIABLE_NAMES)];
    words.extend(i32::try_from(count));
    words.extend((0..count).map(|_| numbers.one_of(&LABEL_NAMES)));
    words.extend([23, numbers.literal()]);
    let place = match cause.piece {
        Piece::Variable => 0,
        Piece::Count => 1,
        Piece::Label => 2 + numbers.below(count),
        Piece::Literal => 2 + count,
        Piece::Integer => 3 + count,
    };
    match wrong_words(numbers, cause) {
        Some(wrong) => drop(words.splice(place..place + 1, wrong)),
        None => words.truncate(place),
    }
    words
}

/// The words in place of the wrong one, or none where they run out.
fn wrong_words(numbers: &mut Numbers, cause: Cause) -> Option<Vec<i32>> {
    let edges = match (cause.piece, cause.wrong) {
        (_, Wrong::Missing) => return None,
        (Piece::Literal, Wrong::Below) => [19, 0, -1, i32::MIN],
        (_, Wrong::Below) => [-1, -1, -2, i32::MIN],
        (Piece::Variable, Wrong::Above) => [64, 64, 65, i32::MAX],
        (Piece::Count, Wrong::Above) => [8, 8, 9, i32::MAX],
        (Piece::Label, Wrong::Above) => [32, 32, 33, i32::MAX],
        (_, Wrong::Above) => return Some(no_literal(numbers)),
    };
    Some(vec![numbers.one_of(&edges)])
}

/// An expression that is no literal, or no expression.
fn no_literal(numbers: &mut Numbers) -> Vec<i32> {
    let variable = numbers.one_of(&VARIABLE_NAMES);
    match numbers.below(6) {
        0 => vec![24],
        1 => vec![24, variable, 0],
        2 => vec![25, 1, 23, 1],
        3 => vec![26, variable, 0, variable, 0],
        4 => vec![27],
        _ => vec![i32::MAX],
    }
}
