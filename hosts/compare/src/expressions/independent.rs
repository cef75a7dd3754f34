//! The independent program's answers for pieces.

use super::held;
use super::unread;
use crate::proved::{Call, Four, Piece, Pieces};
use reference::constraints::{all_parts_hold, reads, required_parts_hold};
use reference::evaluate;
use reference::outcome::Fault;
use reference::program::{Constraint, Expression, Path};
use reference::tables::Tables;

/// The words, and the tables as maps.
pub struct Asked<'a> {
    pub words: &'a [i32],
    pub tables: &'a Tables,
}

/// The answer for each piece, or none where there is none to compare.
pub fn answers(question: &Pieces, tables: &Tables) -> Vec<Option<Four>> {
    let asked = Asked {
        words: &question.words,
        tables,
    };
    let pieces = question.pieces.iter();
    pieces
        .map(|piece| match piece.call {
            Call::Kept => asked.kept(&held::positions(&question.constraints)),
            _ => asked.piece(*piece),
        })
        .collect()
}

impl Asked<'_> {
    fn piece(&self, piece: Piece) -> Option<Four> {
        let start = piece.start.min(self.words.len());
        match piece.call {
            Call::Path => self.path(start),
            Call::Expression => self.expression(start),
            Call::Test => self.test(start),
            Call::Constraint | Call::Kept => self.constraint(start),
        }
    }

    /// How many words are left from a word on.
    fn left(&self, word: usize) -> i32 {
        i32::try_from(self.words.len().saturating_sub(word)).unwrap_or(i32::MAX)
    }

    fn refused(&self, fault: Fault) -> Option<Four> {
        Some([fault.outcome.number(), self.left(fault.word?), 0, 0])
    }

    fn unread(&self, refusal: Option<(i32, usize)>) -> Option<Four> {
        let (number, word) = refusal?;
        Some([number, self.left(word), 0, 0])
    }

    fn path(&self, start: usize) -> Option<Four> {
        let leads = |path: &Path| evaluate::locate(self.tables, path).is_ok();
        match Path::decode(self.words, start) {
            Ok((path, next)) => match evaluate::locate(self.tables, &path) {
                Ok(cell) => Some([0, number(cell), self.left(next), 0]),
                Err(fault) => self.refused(fault),
            },
            Err(place) => {
                let path = unread::completed(self.words, start, place, Path::decode)?;
                let refusal = unread::refusal(self.words, place, None, &[&path], leads);
                self.unread(refusal)
            }
        }
    }

    fn expression(&self, start: usize) -> Option<Four> {
        match Expression::decode(self.words, start) {
            Ok((expression, next)) => match evaluate::value(self.tables, &expression) {
                Ok(value) => {
                    let (kind, payload) = value.words();
                    Some([0, kind, payload, self.left(next)])
                }
                Err(fault) => self.refused(fault),
            },
            Err(place) => self.unread_expression(start, place),
        }
    }

    fn test(&self, start: usize) -> Option<Four> {
        match Expression::decode(self.words, start) {
            Ok((expression, _)) => match evaluate::test(self.tables, &expression) {
                Ok(truth) => Some([0, i32::from(truth), 0, 0]),
                Err(fault) => self.refused(fault),
            },
            Err(place) => self.unread_expression(start, place),
        }
    }

    fn unread_expression(&self, start: usize, place: usize) -> Option<Four> {
        let expression = unread::completed(self.words, start, place, Expression::decode)?;
        let fault = evaluate::value(self.tables, &expression).err();
        let paths = unread::paths(&expression);
        self.unread(unread::refusal(self.words, place, fault, &paths, |path| {
            evaluate::read(self.tables, path).is_ok()
        }))
    }

    fn constraint(&self, start: usize) -> Option<Four> {
        let place = match Constraint::decode(self.words, start) {
            Ok((constraint, _)) => return self.weighed(&constraint),
            Err(place) => place,
        };
        let constraint = unread::completed(self.words, start, place, Constraint::decode)?;
        let fault = reads(self.tables, &constraint).err();
        let paths = unread::constraint_paths(&constraint);
        self.unread(unread::refusal(self.words, place, fault, &paths, |path| {
            evaluate::read(self.tables, path).is_ok()
        }))
    }

    fn weighed(&self, constraint: &Constraint) -> Option<Four> {
        match reads(self.tables, constraint) {
            Err(fault) => self.refused(fault),
            Ok(()) => Some([
                0,
                i32::from(all_parts_hold(self.tables, constraint)),
                i32::from(required_parts_hold(self.tables, constraint)),
                0,
            ]),
        }
    }

    /// The first kept constraint that does not read is 15, with its own word.
    fn kept(&self, positions: &[usize]) -> Option<Four> {
        let (mut all, mut required) = (1, 1);
        for position in positions {
            let start = position.saturating_add(1).min(self.words.len());
            match self.constraint(start)? {
                [0, each, strict, _] => {
                    all = all.min(each);
                    required = required.min(strict);
                }
                [_, word, _, _] => return Some([15, word, 0, 0]),
            }
        }
        Some([0, all, required, 0])
    }
}

fn number(number: usize) -> i32 {
    i32::try_from(number).unwrap_or(i32::MAX)
}
