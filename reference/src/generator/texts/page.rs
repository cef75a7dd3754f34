//! Tokens to bytes: white space where it is needed, and where it is not.

use super::print::{Printed, Word};
use crate::generator::numbers::Numbers;
use crate::text::{LARGEST_TEXT, PROGRAM_WORDS};

const WHITE: [u8; 4] = [b' ', b'\n', b'\t', b'\r'];

/// What a reader has to find in a text.
#[derive(Clone, Debug, Default, PartialEq, Eq)]
pub struct Expected {
    pub words: Vec<i32>,
    pub origins: Vec<i32>,
    pub names: Vec<i32>,
    pub variables: usize,
    pub labels: usize,
}

/// How much white space stands between two tokens.
#[derive(Clone, Copy, Debug)]
pub enum Spacing {
    Needed,
    One,
    Any,
}

impl Spacing {
    pub fn any(numbers: &mut Numbers) -> Spacing {
        match numbers.below(3) {
            0 => Spacing::Needed,
            1 => Spacing::One,
            _ => Spacing::Any,
        }
    }

    fn between(self, numbers: &mut Numbers) -> Vec<u8> {
        match self {
            Spacing::Needed => Vec::new(),
            Spacing::One => vec![b' '],
            Spacing::Any => {
                let count = numbers.below(4);
                (0..count).filter_map(|_| numbers.pick(&WHITE)).collect()
            }
        }
    }
}

/// A text as its tokens and the white space around them.
#[derive(Clone, Debug)]
pub struct Page {
    /// Each token with what stands before it.
    pub pieces: Vec<(Vec<u8>, Vec<u8>)>,
    pub tail: Vec<u8>,
}

/// A name or number would go on with what follows it.
fn runs_together(left: &[u8], right: &[u8]) -> bool {
    let goes_on = |byte: &u8| byte.is_ascii_alphanumeric() || *byte == b'_';
    match (left.first(), left.last(), right.first()) {
        (Some(b'a'..=b'z'), Some(last), Some(first)) => *last != b'?' && goes_on(first),
        (_, Some(b'0'..=b'9'), Some(first)) => first.is_ascii_digit(),
        _ => false,
    }
}

impl Page {
    pub fn new(numbers: &mut Numbers, spacing: Spacing, tokens: &[Vec<u8>]) -> Page {
        let mut pieces: Vec<(Vec<u8>, Vec<u8>)> = Vec::new();
        for token in tokens {
            let mut space = spacing.between(numbers);
            let last = pieces.last().map_or(&b""[..], |(_, token)| token);
            if space.is_empty() && runs_together(last, token) {
                space.extend(numbers.pick(&WHITE));
            }
            pieces.push((space, token.clone()));
        }
        let tail = spacing.between(numbers);
        Page { pieces, tail }
    }

    pub fn bytes(&self) -> Vec<u8> {
        let mut bytes = Vec::new();
        for (space, token) in &self.pieces {
            bytes.extend(space);
            bytes.extend(token);
        }
        bytes.extend(&self.tail);
        bytes
    }

    /// Where each token begins, and last the text's length.
    pub fn places(&self) -> Vec<usize> {
        let mut end = 0;
        let mut places = Vec::new();
        for (space, token) in &self.pieces {
            places.push(end + space.len());
            end += space.len() + token.len();
        }
        places.push(end + self.tail.len());
        places
    }

    fn space(&mut self, token: usize) -> &mut Vec<u8> {
        match self.pieces.get_mut(token) {
            Some((space, _)) => space,
            None => &mut self.tail,
        }
    }

    /// Puts bytes directly before a token, or before the end.
    pub fn put(&mut self, token: usize, bytes: &[u8]) {
        self.space(token).extend(bytes);
    }

    /// Puts bytes directly behind the token before a token.
    pub fn put_first(&mut self, token: usize, bytes: &[u8]) {
        self.space(token).splice(0..0, bytes.iter().copied());
    }

    /// What a reader finds, if neither words nor bytes are too many.
    pub fn expected(&self, printed: &Printed) -> Option<Expected> {
        let places = self.places();
        let length = places.last().copied().unwrap_or(0);
        if printed.words.len() > PROGRAM_WORDS || length > LARGEST_TEXT {
            return None;
        }
        let origin = |(_, token): &Word| token.map_or(0, |token| self.place(&places, token));
        let mut names = self.names(&places, &printed.variables);
        names.resize(128, 0);
        names.extend(self.names(&places, &printed.labels));
        names.resize(192, 0);
        Some(Expected {
            words: printed.words.iter().map(|(word, _)| *word).collect(),
            origins: printed.words.iter().map(origin).collect(),
            names,
            variables: printed.variables.len(),
            labels: printed.labels.len(),
        })
    }

    fn place(&self, places: &[usize], token: usize) -> i32 {
        let place = places.get(token).copied().unwrap_or(0);
        i32::try_from(place).unwrap_or(0)
    }

    fn names(&self, places: &[usize], tokens: &[usize]) -> Vec<i32> {
        let length = |token: usize| self.pieces.get(token).map_or(0, |(_, name)| name.len());
        let pairs = tokens.iter().flat_map(|token| {
            let length = i32::try_from(length(*token)).unwrap_or(0);
            [self.place(places, *token), length]
        });
        pairs.collect()
    }
}
