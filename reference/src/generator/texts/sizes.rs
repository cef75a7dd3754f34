//! Programs about 4,096 words, and texts about 65,536 bytes.

use super::grow::Grower;
use super::page::Page;
use super::print::{print, Manner};
use super::spelling::Spelling;
use super::spoil;
use super::tree::{Block, Expression, Path, Statement};
use crate::generator::numbers::Numbers;
use crate::text::{LARGEST_TEXT, PROGRAM_WORDS};

/// The words of a sum of 16 numbers that is assigned to a variable.
const SUM_WORDS: usize = 65;

fn sum() -> Statement {
    let sum = (0..15).fold(Expression::Integer(1), |sum, _| {
        Expression::apply(1, sum, Expression::Integer(1))
    });
    Statement::Assign(Path::variable(0), sum)
}

/// Statements of so many words in all.
fn filler(words: usize) -> Block {
    let mut block = vec![sum(); words / SUM_WORDS];
    block.extend(vec![Statement::Skip; words % SUM_WORDS]);
    block
}

/// The same statements behind so many words of others.
fn behind(words: usize, statements: Block) -> Block {
    let mut block = filler(words);
    block.extend(statements);
    block
}

/// A few statements behind so many others that the program has 4,096 words,
/// or more: the first word too many then belongs to any of their tokens.
pub fn words(numbers: &mut Numbers, spelling: &Spelling) -> Block {
    let statements = 1 + numbers.below(3);
    let last = Grower::new(numbers).block(statements, 2);
    let last = match numbers.below(4) {
        0 => vec![Statement::While(Expression::True, last)],
        1 => vec![Statement::If(Expression::Nil, last, Vec::new())],
        _ => last,
    };
    let manner = Manner::plain(numbers);
    let own = print(numbers, spelling, manner, &last).words.len() - 1;
    let more = match numbers.below(4) {
        0 => 0,
        _ => numbers.below(own + 1),
    };
    behind((PROGRAM_WORDS + more).saturating_sub(own + 1), last)
}

/// As `words`, with a path behind `always` or `once`: three words of it are
/// certain with the token behind it only.
pub fn owed(numbers: &mut Numbers) -> Block {
    let labels = vec![0; numbers.below(3)];
    let path_words = 3 + labels.len();
    let variable = 0;
    let path = Expression::Read(Path { variable, labels });
    let mut parts = vec![(3, path.clone())];
    let (mut open, mut after) = (0, Vec::new());
    match numbers.below(5) {
        0 => after.push(Statement::Skip),
        1 => parts.push((3, Expression::True)),
        2 => open = 3,
        3 => parts = vec![(3, Expression::apply(6, path, Expression::Nil))],
        _ => {}
    }
    let mut block = vec![Statement::Constraint(numbers.between(3, 4), parts)];
    block.extend(after);
    if open > 0 {
        block = vec![Statement::While(Expression::True, block)];
    }
    let room = numbers.below(6);
    behind(PROGRAM_WORDS - path_words - open - room - 1, block)
}

/// Pads a text so that it is as long as it may be, or a little longer, or so
/// that one of its tokens stands about byte 65,536.
pub fn pad(numbers: &mut Numbers, page: &mut Page) {
    let white = numbers.pick(b"  \n\t\r").unwrap_or(b' ');
    let token = numbers.below(page.pieces.len() + 1);
    let places = page.places();
    let length = page.pieces.get(token).map_or(0, |(_, token)| token.len());
    let (from, to) = match numbers.below(3) {
        0 => (places.last(), LARGEST_TEXT + numbers.below(2)),
        _ => (
            places.get(token),
            LARGEST_TEXT.saturating_sub(numbers.below(length + 2)),
        ),
    };
    let from = from.copied().unwrap_or(0);
    page.put(token, &vec![white; to.saturating_sub(from)]);
}

/// Pads a text in which a token has another in its place, so that this one
/// stands about byte 65,536.
pub fn pad_spoilt(numbers: &mut Numbers, page: &mut Page) {
    let token = numbers.below(page.pieces.len());
    let place = page.places().get(token).copied().unwrap_or(0);
    let new = spoil::any_token(numbers);
    let back = numbers.below(new.len() + 2);
    if let Some((_, there)) = page.pieces.get_mut(token) {
        *there = new;
    }
    page.put(
        token,
        &vec![b' '; LARGEST_TEXT.saturating_sub(back + place)],
    );
}

/// Gives a number so many zeros that it ends about byte 65,536.
pub fn stretch(numbers: &mut Numbers, page: &mut Page) {
    let tokens = page.pieces.iter().enumerate();
    let literals: Vec<usize> = tokens
        .filter(|(_, (_, token))| token.last().is_some_and(u8::is_ascii_digit) && is_literal(token))
        .map(|(number, _)| number)
        .collect();
    let Some(literal) = numbers.pick(&literals) else {
        return pad(numbers, page);
    };
    let place = page.places().get(literal).copied().unwrap_or(0);
    if let Some((_, token)) = page.pieces.get_mut(literal) {
        let sign = usize::from(token.starts_with(b"-"));
        let end = LARGEST_TEXT + numbers.below(3) - 1;
        let zeros = end.saturating_sub(place + token.len());
        token.splice(sign..sign, vec![b'0'; zeros]);
    }
}

fn is_literal(token: &[u8]) -> bool {
    let digits = token.strip_prefix(b"-").unwrap_or(token);
    matches!(token, b"nil" | b"true" | b"false") || digits.first().is_some_and(u8::is_ascii_digit)
}

/// Tokens behind which a literal is an operand, and no part's first token.
fn is_before_operand(token: &[u8]) -> bool {
    let tokens = [
        ":=", "+", "-", "*", "=", "<", "and", "or", "if", "while", ":",
    ];
    tokens.iter().any(|before| before.as_bytes() == token)
}

/// Puts thousands of brackets around a literal; where they are one too many on
/// a side, which is told, the text does not read.
pub fn bracket(numbers: &mut Numbers, page: &mut Page) -> bool {
    let pairs = page.pieces.iter().zip(page.pieces.iter().skip(1));
    let places: Vec<usize> = pairs
        .zip(1..)
        .filter(|(((_, before), (_, token)), _)| is_before_operand(before) && is_literal(token))
        .map(|(_, place)| place)
        .collect();
    let Some(place) = numbers.pick(&places) else {
        return true;
    };
    let opened = 1000 + numbers.below(31_000);
    let closed = match numbers.below(6) {
        0 => opened + 1,
        1 => opened - 1,
        _ => opened,
    };
    page.put(place, &vec![b'('; opened]);
    page.put_first(place + 1, &vec![b')'; closed]);
    opened == closed
}
