//! What comes back from a run, and from a list.

use core::fmt;

/// What a run gives back beside its tables.
///
/// Prints as the first four lines of the run lister, so that an answer and
/// then its [`Tables`](crate::Tables) are the lister's whole output.
#[must_use = "a run may be refused"]
#[derive(Clone, Copy, Debug, PartialEq, Eq)]
pub struct Answer<'p> {
    /// How the run ended.
    pub outcome: Outcome,
    /// Where it ended: see [`Outcome`].
    pub place: usize,
    /// Statements begun, refused ones too, and later tests of whiles.
    pub steps: u32,
    /// Proposals accepted.
    pub accepted: u32,
    /// The last words of the proposals, which were not read. A proposal that
    /// was turned down is among them.
    pub unread: &'p [i32],
}

/// What a list gives back beside its tables, which hold what the last accepted
/// entry left.
///
/// It is no [`Answer`], whose place is a word that
/// [`Program::refusal`](crate::Program::refusal) shows in the text: here the
/// place is an entry's index, and the text has no place to show.
///
/// Prints on one line: `0 after 3 entries: finished`,
/// `19 at entry 2: a required part is not met`, and for 1 to 4
/// `3 at place 1: a table's content is unfit`.
#[must_use = "an entry may be refused"]
#[derive(Clone, Copy, Debug, PartialEq, Eq)]
pub struct ListAnswer<'p> {
    /// How the list ended.
    pub outcome: Outcome,
    /// The refused entry's index, from 0, or the number of entries where all
    /// went through. For 1 to 4 it is the place of a run, see [`Outcome`]; that
    /// of 4 is a word, which [`Program::spot`](crate::Program::spot) shows.
    pub place: usize,
    /// Entries begun, a refused one too; 5 and 23 begin none.
    pub steps: u32,
    /// Proposals accepted: one for each entry that went through.
    pub accepted: u32,
    /// The last words of the proposals, which were not read. A proposal that
    /// was turned down is among them.
    pub unread: &'p [i32],
}

/// How a run ended, under document 01's numbers; how a text was read, which is
/// 0, 1 or 20 to 22; how a list ended, which is a run's or 23; how a statement
/// with two solvers ended, which is a run's but for 5 and 11; or how a program
/// was written, which is 0 to 2, 24 or 25. Prints as what it says.
///
/// 1 to 4 are tried in their order; they cost no steps, accept no proposal and
/// change no table. From 5 on the tables hold what the last accepted statement
/// left. For 7, 8, 9 and 15 the place is the word at fault, as each tells; for
/// the others from 5 to 19 it is the word of the refused statement (the while's
/// where a later test cannot be paid).
/// [`Program::refusal`](crate::Program::refusal) shows it in the text. Of a
/// list the place is, from 5 on, the refused entry's index.
#[derive(Clone, Copy, Debug, PartialEq, Eq, PartialOrd, Ord, Hash)]
pub enum Outcome {
    /// The place is the program's length, the number of a list's entries, or
    /// the word of the statement that two solvers were asked about.
    Finished = 0,
    /// A table's length or the budget is wrong. The place is 0.
    WrongSize = 1,
    /// The program does not read. The place is its first unfit word, its
    /// length if words run out, 4096 if it has over 4,096 words. For two
    /// solvers also: no statement that reads a proposal begins at the word that
    /// was asked about, which is the place.
    UnfitProgram = 2,
    /// A table's content is unfit. The place is the first such table: 0
    /// environment, 1 heap, 2 constraints.
    UnfitTable = 3,
    /// At the start a kept constraint does not read, or a required part or
    /// identity does not hold. The place is its position.
    UnfitStart = 4,
    /// The next step would pass the budget.
    BudgetSpent = 5,
    /// No proposal words are left.
    NoProposal = 6,
    /// An absent variable, a missing field, or a path through a non-record. The
    /// place is the path's variable word.
    NoCell = 7,
    /// A value of the wrong kind. The place is the first word of the operation
    /// (its 25) or of the test, the priority of the part, or the variable word
    /// of the identity's side.
    WrongKind = 8,
    /// A sum, difference or product, outside constraints, leaves 32 bits. The
    /// place is its first word (its 25).
    OutOfRange = 9,
    /// There are 64 records already.
    HeapFull = 10,
    /// An identity does not hold now.
    NotIdentical = 11,
    /// The identities would move a frozen cell, one that a path leads through.
    IdentityClash = 12,
    /// The target of an identity is given a boolean or an integer.
    PlainIdentity = 13,
    /// There is no room for a position that is not yet kept.
    NoRoom = 14,
    /// A kept value constraint no longer reads. The place is in the first such
    /// constraint, in kept order: the word that 7 or 8 would have there.
    LostConstraint = 15,
    /// The proposal is cut short, its n is out of range, or its locations do
    /// not rise or are outside 0 to 575. For two solvers also: words are left
    /// over behind it.
    UnfitProposal = 16,
    /// An entry of the proposal names a cell or a payload that it may not.
    UnfitEntry = 17,
    /// The proposal changes something, and every part was satisfied without it.
    NeedlessChange = 18,
    /// A required part is not met after the proposal.
    RequiredUnmet = 19,
    /// A text's token may not stand there, or begins no token. The place of
    /// this and of the next two is the token's first byte.
    UnfitText = 20,
    /// A text's name is the 65th variable or the 33rd label.
    TooManyNames = 21,
    /// A text's token passes a limit, or byte 65,536.
    OverLimit = 22,
    /// An entry of a list is no target and literal: a word is out of its range,
    /// or the words run out. Found at its turn, before 5.
    UnfitAssignment = 23,
    /// A name for a program's text is no name of the notation, no part of the
    /// source or an earlier number's too; or a number is used, and the one
    /// before it is not used earlier. The place is the first such number,
    /// labels from 64 on.
    UnfitNames = 24,
    /// A program's text is longer than the bytes lent for it or than 65,536.
    /// The place is the length that it has.
    TextTooLong = 25,
}

impl Outcome {
    /// Every outcome, each at its number.
    pub const ALL: [Outcome; 26] = [
        Outcome::Finished,
        Outcome::WrongSize,
        Outcome::UnfitProgram,
        Outcome::UnfitTable,
        Outcome::UnfitStart,
        Outcome::BudgetSpent,
        Outcome::NoProposal,
        Outcome::NoCell,
        Outcome::WrongKind,
        Outcome::OutOfRange,
        Outcome::HeapFull,
        Outcome::NotIdentical,
        Outcome::IdentityClash,
        Outcome::PlainIdentity,
        Outcome::NoRoom,
        Outcome::LostConstraint,
        Outcome::UnfitProposal,
        Outcome::UnfitEntry,
        Outcome::NeedlessChange,
        Outcome::RequiredUnmet,
        Outcome::UnfitText,
        Outcome::TooManyNames,
        Outcome::OverLimit,
        Outcome::UnfitAssignment,
        Outcome::UnfitNames,
        Outcome::TextTooLong,
    ];

    /// Its number, 0 to 25.
    pub fn number(self) -> i32 {
        self as i32
    }

    /// The outcome of a number from 0 to 25.
    pub fn of_number(number: i32) -> Option<Outcome> {
        let place = usize::try_from(number).ok()?;
        Outcome::ALL.get(place).copied()
    }

    /// What the documents say of it.
    pub fn says(self) -> &'static str {
        match self {
            Outcome::Finished => "finished",
            Outcome::WrongSize => "a table's length or the budget is wrong",
            Outcome::UnfitProgram => "program does not read",
            Outcome::UnfitTable => "a table's content is unfit",
            Outcome::UnfitStart => {
                "a kept constraint does not read, or a required part or identity does not hold, at the start"
            }
            Outcome::BudgetSpent => "next step would pass the budget",
            Outcome::NoProposal => "no proposal words left",
            Outcome::NoCell => "absent variable, missing field, path through a non-record",
            Outcome::WrongKind => "wrong kind",
            Outcome::OutOfRange => "range, outside C",
            Outcome::HeapFull => "heap full",
            Outcome::NotIdentical => "identity does not hold now",
            Outcome::IdentityClash => "identity clash",
            Outcome::PlainIdentity => "target of an identity given a boolean or integer",
            Outcome::NoRoom => "no room for a position not yet kept",
            Outcome::LostConstraint => "a kept value constraint no longer reads",
            Outcome::UnfitProposal => {
                "proposal cut short, n out of range, locations not rising or outside 0 to 575"
            }
            Outcome::UnfitEntry => "an entry names a cell or payload it may not",
            Outcome::NeedlessChange => "needless change",
            Outcome::RequiredUnmet => "a required part is not met",
            Outcome::UnfitText => "text unfit",
            Outcome::TooManyNames => "too many names",
            Outcome::OverLimit => "over 64 KiB or a limit",
            Outcome::UnfitAssignment => "an entry is no target and literal",
            Outcome::UnfitNames => "unfit names",
            Outcome::TextTooLong => "the text is too long",
        }
    }
}

impl<'p> ListAnswer<'p> {
    /// The index of the entry that was refused. There is none where all went
    /// through, and for 1 to 4, whose places are no entries.
    pub fn refused(&self) -> Option<usize> {
        (self.outcome >= Outcome::BudgetSpent).then_some(self.place)
    }

    /// The same numbers, of a list.
    pub(crate) fn of(answer: Answer<'p>) -> ListAnswer<'p> {
        ListAnswer {
            outcome: answer.outcome,
            place: answer.place,
            steps: answer.steps,
            accepted: answer.accepted,
            unread: answer.unread,
        }
    }
}

impl fmt::Display for Outcome {
    fn fmt(&self, out: &mut fmt::Formatter<'_>) -> fmt::Result {
        out.pad(self.says())
    }
}

impl fmt::Display for Answer<'_> {
    fn fmt(&self, out: &mut fmt::Formatter<'_>) -> fmt::Result {
        writeln!(out, "outcome={}", self.outcome.number())?;
        writeln!(out, "place={}", self.place)?;
        writeln!(out, "steps={}", self.steps)?;
        writeln!(out, "proposals={}", self.accepted)
    }
}

impl fmt::Display for ListAnswer<'_> {
    fn fmt(&self, out: &mut fmt::Formatter<'_>) -> fmt::Result {
        let (number, place, outcome) = (self.outcome.number(), self.place, self.outcome);
        if outcome == Outcome::Finished {
            return write!(out, "{number} after {place} entries: {outcome}");
        }
        let of = self.refused().map_or("place", |_| "entry");
        write!(out, "{number} at {of} {place}: {outcome}")
    }
}
