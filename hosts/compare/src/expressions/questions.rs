//! The questions of a seed, the same on every machine.

use super::grown::Growth;
use super::held;
use super::lent;
use super::sheets;
use crate::damage::damage;
use crate::proved::{Call, Piece, Pieces};
use reference::generator::numbers::Numbers;
use reference::tables::{Tables, CONSTRAINT_WORDS, VALUE_POSITIONS};

/// How many expressions, how many constraints, and how many paths there are
/// in a question, and how many places are asked about at random.
const EACH: usize = 8;
const PATHS: usize = 3;
const STRAYS: usize = 2;

/// A question, with its tables as the independent program holds them.
pub struct Drawn {
    pub question: Pieces,
    pub tables: Tables,
    pub fit: bool,
}

/// One question in eight is a generated program's.
pub fn question(seed: u64, index: u64) -> Drawn {
    let mut numbers = Numbers::new(seed ^ 0x7069_6563, index);
    let mut question = match numbers.below(8) {
        0 => sheets::question(seed, index),
        _ => grown(&mut numbers),
    };
    ask(&mut question, Call::Kept, 0);
    let fit = held::fit(&question.environment, &question.heap);
    Drawn {
        fit: fit.is_some(),
        tables: fit.unwrap_or_else(|| held::unfit(&question.environment, &question.heap)),
        question,
    }
}

fn grown(numbers: &mut Numbers) -> Pieces {
    let lent = match numbers.chance(50) {
        true => lent::fit(numbers),
        false => lent::damaged(numbers),
    };
    let tables = held::unfit(&lent.environment, &lent.heap);
    let mut question = Pieces {
        environment: lent.environment,
        heap: lent.heap,
        ..Pieces::default()
    };
    let mut always = Vec::new();
    for number in 0..2 * EACH + PATHS {
        let call = match number {
            _ if number >= 2 * EACH => Call::Path,
            _ if number % 2 == 0 => Call::Expression,
            _ => Call::Constraint,
        };
        add(numbers, &tables, &mut question, &mut always, call);
    }
    for _ in 0..STRAYS {
        let start = numbers.below(question.words.len() + 3);
        let call = numbers.pick(&[Call::Expression, Call::Constraint]);
        ask(&mut question, call.unwrap_or(Call::Path), start);
    }
    question.constraints = kept(numbers, &always);
    question
}

/// A piece more, three in ten damaged. A constraint follows the word of its
/// always-statement.
fn add(
    numbers: &mut Numbers,
    tables: &Tables,
    question: &mut Pieces,
    always: &mut Vec<i32>,
    call: Call,
) {
    let mut growth = Growth::new(numbers, tables);
    match call {
        Call::Path => growth.any_path(),
        Call::Constraint => growth.constraint(),
        _ => growth.any_expression(),
    }
    let mut words = growth.words;
    if numbers.chance(30) {
        for _ in 0..=numbers.below(2) {
            damage(numbers, &mut words);
        }
    }
    if call == Call::Constraint {
        always.push(i32::try_from(question.words.len()).unwrap_or(i32::MAX));
        question.words.push(3);
    }
    ask(question, call, question.words.len());
    question.words.extend(words);
}

/// An expression is evaluated, and tested too.
pub fn ask(question: &mut Pieces, call: Call, start: usize) {
    question.pieces.push(Piece { call, start });
    if call == Call::Expression {
        let call = Call::Test;
        question.pieces.push(Piece { call, start });
    }
}

/// Some of the always-statements kept, in any order; now and then a count or
/// a position is any word, or the table is cut.
fn kept(numbers: &mut Numbers, always: &[i32]) -> Vec<i32> {
    let count = numbers.below(5);
    let mut table = vec![0; CONSTRAINT_WORDS];
    for (place, slot) in table.iter_mut().enumerate().take(2 + count) {
        match place {
            0 => *slot = i32::try_from(count).unwrap_or(0),
            1 => {}
            _ => *slot = numbers.pick(always).unwrap_or(0),
        }
    }
    if numbers.chance(10) {
        let place = numbers.one_of(&[0, 0, 2, 3]);
        let word = numbers.one_of(&[-1, 0, 1, 4, 64, 65, 500, i32::MAX, i32::MIN]);
        let place = usize::try_from(place).unwrap_or(0);
        table.splice(place..=place, [word]);
    }
    if numbers.chance(2) {
        table.truncate(numbers.below(2 + VALUE_POSITIONS));
    }
    table
}
