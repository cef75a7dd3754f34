//! Statements inside blocks that are not run.

use super::question::Question;
use crate::generator::compose::{Composer, Place};
use crate::generator::draft::Draft;
use crate::program::DEEPEST_BLOCK;

/// A statement inside others, and where it begins among their words.
struct Placed {
    words: Vec<i32>,
    at: usize,
}

/// Asks about a statement on any depth, behind what the draft ran.
pub fn place(mut draft: Draft, statement: Vec<i32>) -> Option<Question> {
    let depth = 1 + draft.numbers.below(DEEPEST_BLOCK);
    let mut placed = Placed {
        words: statement,
        at: 0,
    };
    for _ in 1..depth {
        placed.enclose(&mut draft.composer());
    }
    let start = draft.append(&placed.words)?.position;
    draft.trail();
    let word = i32::try_from(start + placed.at).ok()?;
    Question::new(draft.program(), draft.tables, word)
}

impl Placed {
    /// Puts it into a while or a branch of an if, mostly by itself.
    fn enclose(&mut self, composer: &mut Composer) {
        let (before, after) = (company(composer), company(composer));
        let other = company(composer);
        let (mut opening, mut closing) = (Vec::new(), after.concat());
        match composer.numbers.below(3) {
            0 => {
                opening.push(8);
                test(composer, &mut opening);
            }
            1 => {
                opening.push(7);
                test(composer, &mut opening);
                closing.extend(block(&other));
            }
            _ => {
                opening.push(7);
                test(composer, &mut opening);
                opening.extend(block(&other));
            }
        }
        opening.extend(i32::try_from(before.len() + 1 + after.len()));
        opening.extend(before.concat());
        self.at += opening.len();
        self.words = [&opening, &self.words, &closing]
            .map(Vec::as_slice)
            .concat();
    }
}

fn block(statements: &[Vec<i32>]) -> Vec<i32> {
    let count = i32::try_from(statements.len()).unwrap_or(0);
    [vec![count], statements.concat()].concat()
}

/// Other statements of a block.
fn company(composer: &mut Composer) -> Vec<Vec<i32>> {
    let count = match composer.numbers.chance(70) {
        true => 0,
        false => 1 + composer.numbers.below(2),
    };
    (0..count).map(|_| composer.statement(0)).collect()
}

/// Any test, as it does not count: false, no boolean or refused too.
fn test(composer: &mut Composer, words: &mut Vec<i32>) {
    match composer.numbers.below(8) {
        0..=2 => words.push(22),
        3 | 4 => words.push(21),
        5 => words.push(20),
        6 => words.extend([25, 4, 25, 1, 23, i32::MAX, 23, 1, 24, 61, 0]),
        _ => composer.boolean(words, 2, Place::Statement),
    }
}
