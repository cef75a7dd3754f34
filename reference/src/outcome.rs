//! The outcomes of runs, lists and askings under their numbers, and the word at
//! fault.

use crate::program::Operator;
use crate::tables::Kind;

#[derive(Clone, Copy, Debug, PartialEq, Eq, PartialOrd, Ord)]
pub enum Outcome {
    Finished = 0,
    WrongSize = 1,
    UnfitProgram = 2,
    UnfitTable = 3,
    UnfitStart = 4,
    BudgetSpent = 5,
    NoProposal = 6,
    NoCell = 7,
    WrongKind = 8,
    OutOfRange = 9,
    HeapFull = 10,
    NotIdentical = 11,
    IdentityClash = 12,
    PlainIdentity = 13,
    NoRoom = 14,
    LostConstraint = 15,
    UnfitProposal = 16,
    UnfitEntry = 17,
    NeedlessChange = 18,
    RequiredUnmet = 19,
    UnfitAssignment = 23,
}

impl Outcome {
    /// Those of a run, each under its number.
    pub const ALL: [Outcome; 20] = [
        Outcome::Finished,
        Outcome::WrongSize,
        Outcome::UnfitProgram,
        Outcome::UnfitTable,
        Outcome::UnfitStart,
        Outcome::BudgetSpent,
        Outcome::NoProposal,
        Outcome::NoCell,
        Outcome::WrongKind,
        Outcome::OutOfRange,
        Outcome::HeapFull,
        Outcome::NotIdentical,
        Outcome::IdentityClash,
        Outcome::PlainIdentity,
        Outcome::NoRoom,
        Outcome::LostConstraint,
        Outcome::UnfitProposal,
        Outcome::UnfitEntry,
        Outcome::NeedlessChange,
        Outcome::RequiredUnmet,
    ];

    /// Those of a list: its entries evaluate nothing, make no record and keep
    /// nothing.
    pub const OF_LISTS: [Outcome; 16] = [
        Outcome::Finished,
        Outcome::WrongSize,
        Outcome::UnfitProgram,
        Outcome::UnfitTable,
        Outcome::UnfitStart,
        Outcome::BudgetSpent,
        Outcome::NoProposal,
        Outcome::NoCell,
        Outcome::IdentityClash,
        Outcome::PlainIdentity,
        Outcome::LostConstraint,
        Outcome::UnfitProposal,
        Outcome::UnfitEntry,
        Outcome::NeedlessChange,
        Outcome::RequiredUnmet,
        Outcome::UnfitAssignment,
    ];

    /// Those of an asking: no steps are counted, and identities are not asked
    /// about.
    pub const OF_ASKINGS: [Outcome; 18] = [
        Outcome::Finished,
        Outcome::WrongSize,
        Outcome::UnfitProgram,
        Outcome::UnfitTable,
        Outcome::UnfitStart,
        Outcome::NoProposal,
        Outcome::NoCell,
        Outcome::WrongKind,
        Outcome::OutOfRange,
        Outcome::HeapFull,
        Outcome::IdentityClash,
        Outcome::PlainIdentity,
        Outcome::NoRoom,
        Outcome::LostConstraint,
        Outcome::UnfitProposal,
        Outcome::UnfitEntry,
        Outcome::NeedlessChange,
        Outcome::RequiredUnmet,
    ];

    pub fn number(self) -> i32 {
        self as i32
    }

    pub fn at(self, word: usize) -> Fault {
        Fault {
            word: Some(word),
            ..self.into()
        }
    }
}

/// An operator, and the kinds that it met.
pub type Operands = (Operator, Kind, Kind);

/// Why a piece is refused, and the word at fault. Only 7, 8, 9 and 15 have
/// one; for all others the place is the statement's word.
#[derive(Clone, Copy, Debug, PartialEq, Eq)]
pub struct Fault {
    pub outcome: Outcome,
    pub word: Option<usize>,
    /// What an operator met that it does not take.
    pub operands: Option<Operands>,
}

impl From<Outcome> for Fault {
    fn from(outcome: Outcome) -> Fault {
        Fault {
            outcome,
            word: None,
            operands: None,
        }
    }
}
