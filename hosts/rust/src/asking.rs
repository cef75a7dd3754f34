//! What comes back from two solvers on one statement.

use crate::answer::Outcome;
use core::fmt;

/// One of the two that are asked. Prints as `first` or `second`.
#[derive(Clone, Copy, Debug, PartialEq, Eq, PartialOrd, Ord, Hash)]
pub enum Solver {
    /// Its proposal is tried first.
    First = 1,
    /// Its proposal is tried where the first's is turned down.
    Second = 2,
}

/// What two solvers on one statement give back beside the tables, which hold
/// what the statement left; where it is refused they are as they were.
///
/// Prints on one line: `0 at word 27: finished, by the second solver`,
/// `19 at word 27: a required part is not met`, for 1 and 3
/// `3 at place 1: a table's content is unfit`, and for a word that may not be
/// asked about `2 at word 28: no statement that reads a proposal begins there`.
#[must_use = "both proposals may be turned down"]
#[derive(Clone, Copy, Debug, PartialEq, Eq)]
pub struct Asked<'p> {
    /// The word that was asked about.
    pub word: i32,
    /// How the statement ended.
    pub outcome: Outcome,
    /// That word where the statement finished, else the place of a run: see
    /// [`Outcome`]. For 2 it can also be that word, which may then be negative.
    /// [`Program::asked_refusal`](crate::Program::asked_refusal) shows it in
    /// the text.
    pub place: i32,
    /// The solver whose proposal was accepted, with the accepted words as a
    /// part of the caller's own slice. There are none on a refusal.
    pub accepted: Option<(Solver, &'p [i32])>,
}

impl Solver {
    /// Its number, 1 or 2.
    pub fn number(self) -> i32 {
        self as i32
    }
}

impl<'p> Asked<'p> {
    /// What the outcome says of an asking, which has no budget, names a word
    /// and takes whole proposals. What 2 says of the word is as true where the
    /// program does not read from that very word on.
    pub fn says(&self) -> &'static str {
        match self.outcome {
            Outcome::WrongSize => "a table's length is wrong",
            Outcome::UnfitProgram if self.place == self.word => {
                "no statement that reads a proposal begins there"
            }
            Outcome::UnfitProposal => {
                "proposal cut short, n out of range, locations not rising or outside 0 to 575, words left over"
            }
            outcome => outcome.says(),
        }
    }

    /// The answer of the three numbers and of the count of words that were
    /// accepted; none where the archive is not the proved one.
    pub(crate) fn of(
        word: i32,
        [outcome, place, solver]: [i32; 3],
        count: usize,
        [first, second]: [&'p [i32]; 2],
    ) -> Option<Asked<'p>> {
        let accepted = match (solver, count) {
            (0, 0) => None,
            (1, _) => Some((Solver::First, first.get(..count)?)),
            (2, _) => Some((Solver::Second, second.get(..count)?)),
            _ => return None,
        };
        Some(Asked {
            word,
            outcome: Outcome::of_number(outcome)?,
            place,
            accepted,
        })
    }
}

impl fmt::Display for Solver {
    fn fmt(&self, out: &mut fmt::Formatter<'_>) -> fmt::Result {
        out.pad(match self {
            Solver::First => "first",
            Solver::Second => "second",
        })
    }
}

impl fmt::Display for Asked<'_> {
    fn fmt(&self, out: &mut fmt::Formatter<'_>) -> fmt::Result {
        let (outcome, place) = (self.outcome, self.place);
        let of = match outcome {
            Outcome::WrongSize | Outcome::UnfitTable => "place",
            _ => "word",
        };
        write!(out, "{} at {of} {place}: {}", outcome.number(), self.says())?;
        match self.accepted {
            Some((solver, _)) => write!(out, ", by the {solver} solver"),
            None => Ok(()),
        }
    }
}
