//! Why entries are no target and literal (23), counted over many lists.

use crate::batch::{Finish, List};
use crate::entries::{decode, starts, LITERALS};
use crate::outcome::Outcome;
use std::fmt;

/// A word of an entry.
#[derive(Clone, Copy, Debug, PartialEq, Eq)]
pub enum Piece {
    Variable,
    Count,
    Label,
    Literal,
    Integer,
}

/// What is wrong with the word: out of its range, or the words have run out.
#[derive(Clone, Copy, Debug, PartialEq, Eq)]
pub enum Wrong {
    Below,
    Above,
    Missing,
}

/// The first unfit word of an entry, and what is wrong with it.
#[derive(Clone, Copy, Debug, PartialEq, Eq)]
pub struct Cause {
    pub piece: Piece,
    pub wrong: Wrong,
}

impl Cause {
    /// No entry begins where the words have run out, and every integer fits.
    pub const ALL: [Cause; 12] = [
        Cause::new(Piece::Variable, Wrong::Below),
        Cause::new(Piece::Variable, Wrong::Above),
        Cause::new(Piece::Count, Wrong::Below),
        Cause::new(Piece::Count, Wrong::Above),
        Cause::new(Piece::Count, Wrong::Missing),
        Cause::new(Piece::Label, Wrong::Below),
        Cause::new(Piece::Label, Wrong::Above),
        Cause::new(Piece::Label, Wrong::Missing),
        Cause::new(Piece::Literal, Wrong::Below),
        Cause::new(Piece::Literal, Wrong::Above),
        Cause::new(Piece::Literal, Wrong::Missing),
        Cause::new(Piece::Integer, Wrong::Missing),
    ];

    const fn new(piece: Piece, wrong: Wrong) -> Cause {
        Cause { piece, wrong }
    }

    /// That of the entry which begins at a word; none where it reads.
    pub fn of(entries: &[i32], start: usize) -> Option<Cause> {
        let place = decode(entries, start).err()?;
        let piece = piece(entries, start, place);
        let least = match piece {
            Piece::Literal => *LITERALS.start(),
            _ => 0,
        };
        let wrong = match entries.get(place) {
            None => Wrong::Missing,
            Some(word) if *word < least => Wrong::Below,
            Some(_) => Wrong::Above,
        };
        Some(Cause { piece, wrong })
    }
}

/// What should stand at a place of an entry that is fit up to there.
fn piece(entries: &[i32], start: usize, place: usize) -> Piece {
    let count = entries.get(start + 1).copied().unwrap_or(0);
    let literal = 2 + usize::try_from(count).unwrap_or(0);
    match place - start {
        0 => Piece::Variable,
        1 => Piece::Count,
        word if word < literal => Piece::Label,
        word if word == literal => Piece::Literal,
        _ => Piece::Integer,
    }
}

/// How often each cause of `Cause::ALL` came up.
#[derive(Clone, Debug, Default, PartialEq, Eq)]
pub struct Causes {
    pub counts: [u64; Cause::ALL.len()],
}

impl Causes {
    pub fn count(&mut self, list: &List, finish: &Finish) {
        if finish.answer.outcome != Outcome::UnfitAssignment.number() {
            return;
        }
        let cause = starts(&list.entries)
            .get(finish.answer.place)
            .and_then(|start| Cause::of(&list.entries, *start));
        let all = Cause::ALL.iter().zip(&mut self.counts);
        for (_, count) in all.filter(|(own, _)| Some(**own) == cause) {
            *count += 1;
        }
    }
}

impl fmt::Display for Causes {
    fn fmt(&self, out: &mut fmt::Formatter<'_>) -> fmt::Result {
        let names = Cause::ALL.map(|cause| format!("{:?} {:?}", cause.piece, cause.wrong));
        let told = names.iter().zip(self.counts);
        let told: Vec<String> = told.map(|(name, n)| format!("{name}: {n}")).collect();
        out.write_str(&told.join(", ").to_lowercase())
    }
}
