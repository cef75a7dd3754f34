//! Classes that take a value together (document 02, W7), counted over many
//! sheets.

use crate::batch::{Finish, Sheet};
use crate::outcome::Outcome;
use crate::program::Program;
use crate::proposal::Written;
use crate::run::begin;
use crate::statements::Machine;
use std::fmt;

/// A class of so many cells is counted.
pub const LARGE: usize = 3;

/// The refusals of the identity phase.
pub const REFUSALS: [Outcome; 2] = [Outcome::IdentityClash, Outcome::PlainIdentity];

/// How many sheets moved a large class, how many had one taken back by a
/// refusal behind the identity phase, and how many had each of `REFUSALS`.
#[derive(Clone, Debug, Default, PartialEq, Eq)]
pub struct Classes {
    pub moved: u64,
    pub taken_back: u64,
    pub refused: [u64; REFUSALS.len()],
}

/// The largest class that an accepted statement moved, and the class of the
/// statement that was refused behind its identity phase.
#[derive(Clone, Copy, Debug, Default, PartialEq, Eq)]
pub struct Moves {
    pub largest: usize,
    pub taken_back: usize,
}

impl Classes {
    pub fn count(&mut self, sheet: &Sheet, finish: &Finish) {
        for (count, outcome) in self.refused.iter_mut().zip(REFUSALS) {
            *count += u64::from(finish.answer.outcome == outcome.number());
        }
        let identities = finish.constraints.get(1).copied().unwrap_or(0);
        if identities > 0 {
            let moves = moves(sheet);
            self.moved += u64::from(moves.largest >= LARGE);
            self.taken_back += u64::from(moves.taken_back >= LARGE);
        }
    }

    pub fn add(&mut self, other: &Classes) {
        self.moved += other.moved;
        self.taken_back += other.taken_back;
        for (count, more) in self.refused.iter_mut().zip(other.refused) {
            *count += more;
        }
    }

    /// Whether so many sheets moved a large class, so many had one taken back,
    /// and so many were refused by each number.
    pub fn are_met(&self, moved: u64, taken_back: u64, each: u64) -> bool {
        let refused = self.refused.iter().all(|count| *count >= each);
        self.moved >= moved && self.taken_back >= taken_back && refused
    }
}

/// The answer does not tell what was moved, so that the sheet is run again.
pub fn moves(sheet: &Sheet) -> Moves {
    let mut moves = Moves::default();
    let work = |machine: &mut Machine<Written>, program: &Program| {
        let done = machine.block(&program.block);
        moves = machine.moves;
        match done {
            Ok(()) => (Outcome::Finished, program.length),
            Err(refusal) => (refusal.outcome, refusal.place),
        }
    };
    sheet.on_copies(|lent| begin(&sheet.program, lent, &sheet.proposals, sheet.budget, work));
    moves
}

impl fmt::Display for Classes {
    fn fmt(&self, out: &mut fmt::Formatter<'_>) -> fmt::Result {
        let Classes {
            moved, taken_back, ..
        } = self;
        write!(
            out,
            "classes of {LARGE} cells or more moved: {moved}, taken back: {taken_back}, refused"
        )?;
        for (outcome, count) in REFUSALS.iter().zip(self.refused) {
            write!(out, " {}: {count}", outcome.number())?;
        }
        Ok(())
    }
}
