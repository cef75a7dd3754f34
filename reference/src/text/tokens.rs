//! The tokens of a text, each with its place.

use super::LARGEST_TEXT;

/// Barred as names.
pub const KEYWORDS: [&str; 17] = [
    "new", "skip", "always", "once", "weak", "medium", "required", "if", "then", "else", "while",
    "do", "true", "false", "nil", "and", "or",
];

/// Longer ones stand before those that they begin with.
const SYMBOLS: [&str; 20] = [
    ":=", "<=", "!=", ">=", "==", "/\\", ":", ",", ".", ";", "{", "}", "(", ")", "+", "-", "*",
    "<", "=", ">",
];

/// Keywords and symbols behind which an operand is due.
const BEFORE_OPERANDS: [&str; 22] = [
    ":=", "always", "once", "weak", "medium", "required", "if", "while", ":", "(", "/\\", "+", "-",
    "*", "<", "<=", "=", "!=", ">=", ">", "and", "or",
];

#[derive(Clone, Copy, Debug, PartialEq, Eq)]
pub enum Kind<'a> {
    Name(&'a [u8]),
    /// None is a number outside 32 bits.
    Number(Option<i32>),
    /// A keyword or a symbol.
    Mark(&'static str),
    /// A byte that begins no token.
    Unfit,
    End,
    /// What does not end at byte 65,536 or before.
    Beyond,
}

#[derive(Clone, Copy, Debug, PartialEq, Eq)]
pub struct Token<'a> {
    pub kind: Kind<'a>,
    pub place: usize,
    pub length: usize,
}

impl Token<'_> {
    fn is_before_operand(&self) -> bool {
        match self.kind {
            Kind::Mark(mark) => BEFORE_OPERANDS.contains(&mark),
            _ => false,
        }
    }

    /// Nothing behind such a token is looked at.
    fn is_last(&self) -> bool {
        matches!(self.kind, Kind::Unfit | Kind::End | Kind::Beyond)
    }
}

/// The tokens up to the first that begins none, the end, or the limit of size.
pub fn tokens(text: &[u8]) -> Vec<Token<'_>> {
    let mut tokens: Vec<Token> = Vec::new();
    let mut place = 0;
    loop {
        let rest = text.get(place..).unwrap_or(&[]);
        place += run(rest, |byte| b" \t\n\r".contains(&byte));
        let rest = text.get(place..).unwrap_or(&[]);
        let operand_due = tokens.last().is_some_and(Token::is_before_operand);
        let (kind, length) = first(rest, operand_due);
        let token = match place + length > LARGEST_TEXT {
            true => Token {
                kind: Kind::Beyond,
                place: LARGEST_TEXT,
                length: 0,
            },
            false => Token {
                kind,
                place,
                length,
            },
        };
        tokens.push(token);
        if token.is_last() {
            return tokens;
        }
        place += length;
    }
}

/// How many bytes at the front are of a sort.
fn run(bytes: &[u8], sort: impl Fn(u8) -> bool) -> usize {
    bytes.iter().take_while(|byte| sort(**byte)).count()
}

/// The token that the bytes begin with, and its length.
fn first(bytes: &[u8], operand_due: bool) -> (Kind<'_>, usize) {
    match bytes {
        [] => (Kind::End, 0),
        [b'a'..=b'z', ..] => name(bytes),
        [b'0'..=b'9', ..] => number(bytes, 0),
        [b'-', b'0'..=b'9', ..] if operand_due => number(bytes, 1),
        _ => symbol(bytes),
    }
}

fn name(bytes: &[u8]) -> (Kind<'_>, usize) {
    let mut length = run(bytes, |byte| byte.is_ascii_alphanumeric() || byte == b'_');
    if bytes.get(length) == Some(&b'?') {
        length += 1;
    }
    let name = bytes.get(..length).unwrap_or(bytes);
    match KEYWORDS.iter().find(|word| word.as_bytes() == name) {
        Some(keyword) => (Kind::Mark(keyword), length),
        None => (Kind::Name(name), length),
    }
}

/// Whether all the bytes together are a name.
pub fn is_name(bytes: &[u8]) -> bool {
    let is_whole = |(kind, length)| matches!(kind, Kind::Name(_)) && length == bytes.len();
    bytes.first().is_some_and(u8::is_ascii_lowercase) && is_whole(name(bytes))
}

/// A number behind a sign of so many bytes, none or one.
fn number(bytes: &[u8], sign: usize) -> (Kind<'_>, usize) {
    let digits = bytes.get(sign..).unwrap_or(&[]);
    let length = run(digits, |byte| byte.is_ascii_digit());
    // No more than a little past 32 bits is ever added up.
    let size = digits.iter().take(length).fold(0, |size: i64, digit| {
        (10 * size + i64::from(digit - b'0')).min(1 << 40)
    });
    let number = if sign == 1 { -size } else { size };
    (Kind::Number(i32::try_from(number).ok()), sign + length)
}

fn symbol(bytes: &[u8]) -> (Kind<'_>, usize) {
    let fits = |symbol: &&&str| bytes.starts_with(symbol.as_bytes());
    match SYMBOLS.iter().find(fits) {
        Some(symbol) => (Kind::Mark(symbol), symbol.len()),
        None => (Kind::Unfit, 1),
    }
}
