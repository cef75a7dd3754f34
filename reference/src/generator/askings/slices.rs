//! The solvers' slices, made for what each is to give by itself.

use super::question::Question;
use crate::generator::damage::spoil_list;
use crate::generator::numbers::Numbers;
use crate::generator::search::Mistake;
use crate::outcome::Outcome;
use crate::proposal::Proposal;
use crate::tables::Location;
use std::collections::BTreeMap;

/// What a slice is to give.
#[derive(Clone, Copy, Debug, PartialEq, Eq)]
pub enum Wish {
    /// This; 6 is an empty slice.
    Given(Outcome),
    /// 16 by words left over, and this without them.
    Left(Outcome),
}

/// All that a slice can give; 6 is an empty one.
pub const GIVEN: [Outcome; 6] = [
    Outcome::Finished,
    Outcome::NoProposal,
    Outcome::UnfitProposal,
    Outcome::UnfitEntry,
    Outcome::NeedlessChange,
    Outcome::RequiredUnmet,
];

/// What words may be left behind.
const WHOLE: [Outcome; 4] = [
    Outcome::Finished,
    Outcome::UnfitEntry,
    Outcome::NeedlessChange,
    Outcome::RequiredUnmet,
];

impl Wish {
    /// So many in a hundred have words left over.
    fn any(numbers: &mut Numbers, left: usize) -> Wish {
        let (choices, wish): (&[Outcome], fn(Outcome) -> Wish) = match numbers.chance(left) {
            true => (&WHOLE, Wish::Left),
            false => (&GIVEN, Wish::Given),
        };
        wish(numbers.pick(choices).unwrap_or(Outcome::Finished))
    }

    fn outcome(self) -> Outcome {
        match self {
            Wish::Given(outcome) | Wish::Left(outcome) => outcome,
        }
    }
}

/// For both slices. Where 18 can be given, 19 cannot.
pub fn wishes(numbers: &mut Numbers, left: usize) -> [Wish; 2] {
    loop {
        let wishes = [Wish::any(numbers, left), Wish::any(numbers, left)];
        let outcomes = wishes.map(Wish::outcome);
        let either = |outcome| outcomes.contains(&outcome);
        if !either(Outcome::NeedlessChange) || !either(Outcome::RequiredUnmet) {
            return wishes;
        }
    }
}

/// The words of a slice that gives what is wished, if a few tries find some.
pub fn slice(question: &Question, numbers: &mut Numbers, wish: Wish) -> Option<Vec<i32>> {
    match wish {
        Wish::Given(Outcome::NoProposal) => Some(Vec::new()),
        Wish::Given(outcome) => (0..4)
            .map(|_| attempt(question, numbers, outcome))
            .find(|words| question.judged(words) == outcome),
        Wish::Left(outcome) => {
            let words = slice(question, numbers, Wish::Given(outcome))?;
            let left = left(numbers, &words);
            Some([words, left].concat())
        }
    }
}

/// A slice for an outcome: a short one, or one with more entries that would be
/// accepted but for an entry or a word.
fn attempt(question: &Question, numbers: &mut Numbers, outcome: Outcome) -> Vec<i32> {
    let words = question.written(numbers, Mistake::of(outcome));
    if outcome == Outcome::Finished || numbers.chance(50) {
        return words;
    }
    let needless = Some(Mistake::Needless).filter(|_| outcome == Outcome::NeedlessChange);
    let mut other = question.written(numbers, needless);
    if outcome == Outcome::UnfitProposal {
        spoil_list(numbers, &mut other);
        return other;
    }
    joined(&other, &words).unwrap_or(words)
}

/// The entries of both; where both have a location, those of the second.
fn joined(first: &[i32], second: &[i32]) -> Option<Vec<i32>> {
    let entries = [first, second].map(|words| Proposal::read(words).map(|own| own.entries));
    let [first, second] = entries;
    let entries: BTreeMap<Location, i32> = first.ok()?.into_iter().chain(second.ok()?).collect();
    let mut words = vec![i32::try_from(entries.len()).ok()?];
    for (location, payload) in entries {
        words.extend([i32::try_from(location).ok()?, payload]);
    }
    Some(words)
}

/// Words behind a proposal: one, another proposal, or an entry more.
fn left(numbers: &mut Numbers, words: &[i32]) -> Vec<i32> {
    match numbers.below(5) {
        0 => vec![0],
        1 => words.to_vec(),
        2 => vec![numbers.word()],
        3 => vec![575, numbers.small()],
        _ => (0..=numbers.below(4)).map(|_| numbers.word()).collect(),
    }
}
