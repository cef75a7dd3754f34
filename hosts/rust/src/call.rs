//! The calls of libcordbasin.a, made safe.

use crate::answer::{Answer, ListAnswer, Outcome};
use crate::asking::Asked;
use crate::linked::{
    cordbasin_ask, cordbasin_assign, cordbasin_read, cordbasin_run, cordbasin_write,
};
use crate::tables::Tables;

/// The largest budget that is not refused.
pub const LARGEST_BUDGET: i32 = 1_000_000;

/// The most words that a program may have.
pub const LONGEST_PROGRAM: usize = 4096;

/// The most bytes that a text may have.
pub const LONGEST_TEXT: usize = 65_536;

/// Words of a table of names: place and length of 64 variables and 32 labels.
pub const NAMES_WORDS: usize = 192;

/// Runs a program on tables, which then hold what the run left. Ends within
/// the budget, 0 to 1,000,000 steps.
pub fn run<'p>(
    program: &[i32],
    tables: &mut Tables,
    proposals: &'p [i32],
    budget: i32,
) -> Answer<'p> {
    run_words(
        program,
        &mut tables.environment,
        &mut tables.heap,
        &mut tables.constraints,
        proposals,
        budget,
    )
}

/// As [`run`], on tables that the host keeps as slices of its own. A slice of
/// another length than its table's is refused with [`Outcome::WrongSize`].
pub fn run_words<'p>(
    program: &[i32],
    environment: &mut [i32],
    heap: &mut [i32],
    constraints: &mut [i32],
    proposals: &'p [i32],
    budget: i32,
) -> Answer<'p> {
    // A word that is not written stays negative, which none of the four is.
    let mut answer = [-1; 4];
    // SAFETY: each pointer and count are those of one slice, which lives until
    // the call returns. The slices that are written are borrowed for it alone.
    let unread = unsafe {
        cordbasin_run(
            program.as_ptr(),
            program.len(),
            environment.as_mut_ptr(),
            environment.len(),
            heap.as_mut_ptr(),
            heap.len(),
            constraints.as_mut_ptr(),
            constraints.len(),
            proposals.as_ptr(),
            proposals.len(),
            budget,
            &mut answer,
        )
    };
    match typed(answer, proposals, unread) {
        Some(answer) => answer,
        None => panic!("libcordbasin.a gave {answer:?} and {unread} words unread"),
    }
}

/// Carries out a list of entries on tables, which then hold what the last
/// accepted entry left: each is the assignment of a literal to a target, and
/// reads one proposal. The program is not run; it is the one that the kept
/// constraints stand in.
///
/// The entries are [`Entries`](crate::Entries), or words from elsewhere, one
/// entry after another; only such words can be refused with
/// [`Outcome::UnfitAssignment`]. Each one begun costs a step of the budget, 0 to
/// 1,000,000. The first that is refused ends the list, and those after it are
/// not looked at.
pub fn assign<'p>(
    program: &[i32],
    tables: &mut Tables,
    entries: impl AsRef<[i32]>,
    proposals: &'p [i32],
    budget: i32,
) -> ListAnswer<'p> {
    assign_words(
        program,
        &mut tables.environment,
        &mut tables.heap,
        &mut tables.constraints,
        entries.as_ref(),
        proposals,
        budget,
    )
}

/// As [`assign`], on tables that the host keeps as slices of its own. A slice
/// of another length than its table's is refused with [`Outcome::WrongSize`].
pub fn assign_words<'p>(
    program: &[i32],
    environment: &mut [i32],
    heap: &mut [i32],
    constraints: &mut [i32],
    entries: &[i32],
    proposals: &'p [i32],
    budget: i32,
) -> ListAnswer<'p> {
    let mut answer = [-1; 4];
    // SAFETY: as in `run_words`.
    let unread = unsafe {
        cordbasin_assign(
            program.as_ptr(),
            program.len(),
            environment.as_mut_ptr(),
            environment.len(),
            heap.as_mut_ptr(),
            heap.len(),
            constraints.as_mut_ptr(),
            constraints.len(),
            entries.as_ptr(),
            entries.len(),
            proposals.as_ptr(),
            proposals.len(),
            budget,
            &mut answer,
        )
    };
    match typed(answer, proposals, unread) {
        Some(answer) => ListAnswer::of(answer),
        None => panic!("libcordbasin.a gave {answer:?} and {unread} words unread"),
    }
}

/// Asks two solvers about the statement that begins at a word of the program:
/// an assignment, a new, or an always or once of a constraint, on any depth. It
/// is done by itself, on tables which then hold what it left; the blocks around
/// it and their tests do not count, and neither do steps.
///
/// Each slice is one proposal and no word more. The second is tried where the
/// first is turned down: with 6, which is for a slice without words, or with 16
/// to 19. If it is turned down too, the outcome is the second's, or the first's
/// where the second slice has no words.
///
/// A word that begins no such statement is refused with
/// [`Outcome::UnfitProgram`]. One that is no word of 32 bits is told as the
/// largest of them, which no program has either.
pub fn ask<'p>(
    program: &[i32],
    tables: &mut Tables,
    word: usize,
    first: &'p [i32],
    second: &'p [i32],
) -> Asked<'p> {
    ask_words(
        program,
        &mut tables.environment,
        &mut tables.heap,
        &mut tables.constraints,
        i32::try_from(word).unwrap_or(i32::MAX),
        first,
        second,
    )
}

/// As [`ask`], on tables that the host keeps as slices of its own, and for any
/// word. A slice of another length than its table's is refused with
/// [`Outcome::WrongSize`].
pub fn ask_words<'p>(
    program: &[i32],
    environment: &mut [i32],
    heap: &mut [i32],
    constraints: &mut [i32],
    word: i32,
    first: &'p [i32],
    second: &'p [i32],
) -> Asked<'p> {
    let mut answer = [-1; 3];
    // SAFETY: as in `run_words`.
    let accepted = unsafe {
        cordbasin_ask(
            program.as_ptr(),
            program.len(),
            environment.as_mut_ptr(),
            environment.len(),
            heap.as_mut_ptr(),
            heap.len(),
            constraints.as_mut_ptr(),
            constraints.len(),
            word,
            first.as_ptr(),
            first.len(),
            second.as_ptr(),
            second.len(),
            &mut answer,
        )
    };
    match Asked::of(word, answer, accepted, [first, second]) {
        Some(asked) => asked,
        None => panic!("libcordbasin.a gave {answer:?} and {accepted} words accepted"),
    }
}

/// The answer of the four numbers; none where the archive is not the proved
/// one, which gives numbers in their ranges.
fn typed(
    [outcome, place, steps, accepted]: [i32; 4],
    proposals: &[i32],
    unread: usize,
) -> Option<Answer<'_>> {
    let read = proposals.len().checked_sub(unread)?;
    Some(Answer {
        outcome: Outcome::of_number(outcome)?,
        place: usize::try_from(place).ok()?,
        steps: u32::try_from(steps).ok()?,
        accepted: u32::try_from(accepted).ok()?,
        unread: proposals.get(read..)?,
    })
}

/// What reading a text gives beside the slices that it writes.
#[derive(Clone, Copy, Debug, PartialEq, Eq)]
pub struct Reading {
    /// How the text was read.
    pub outcome: Outcome,
    /// The text's length, or the byte at which it was refused.
    pub place: usize,
    /// How many words the program has.
    pub words: usize,
    /// How many variables have names.
    pub variables: usize,
    /// How many labels have names.
    pub labels: usize,
}

/// Reads a text into slices that the host keeps: the program's words, for each
/// the place of the token that it comes from, and the table of names. A slice
/// of another length than 4,096, 4,096 and 192 words is refused with
/// [`Outcome::WrongSize`]. No refusal writes to them.
///
/// [`Program::read`](crate::Program::read) keeps them itself.
pub fn read_words(
    text: &[u8],
    program: &mut [i32],
    origins: &mut [i32],
    names: &mut [i32],
) -> Reading {
    let mut answer = [-1; 4];
    // SAFETY: as in `run_words`.
    let words = unsafe {
        cordbasin_read(
            text.as_ptr(),
            text.len(),
            program.as_mut_ptr(),
            program.len(),
            origins.as_mut_ptr(),
            origins.len(),
            names.as_mut_ptr(),
            names.len(),
            &mut answer,
        )
    };
    match told(answer, words) {
        Some(reading) => reading,
        None => panic!("libcordbasin.a gave {answer:?} and {words} words"),
    }
}

fn told([outcome, place, variables, labels]: [i32; 4], words: usize) -> Option<Reading> {
    Some(Reading {
        outcome: Outcome::of_number(outcome)?,
        place: usize::try_from(place).ok()?,
        words: Some(words).filter(|words| *words <= LONGEST_PROGRAM)?,
        variables: usize::try_from(variables).ok()?,
        labels: usize::try_from(labels).ok()?,
    })
}

/// What writing a program gives beside the text.
#[derive(Clone, Copy, Debug, PartialEq, Eq)]
pub struct Writing {
    /// How the program was written.
    pub outcome: Outcome,
    /// The program's length, or where it was refused: see [`Outcome`].
    /// [`Unwritten::of`](crate::Unwritten::of) tells what it is.
    pub place: usize,
    /// How many bytes the text has.
    pub bytes: usize,
    /// How many variables are used.
    pub variables: usize,
    /// How many labels are used.
    pub labels: usize,
}

/// Writes the text of a program into bytes that the host keeps; those behind
/// the text stay as they were, and no refusal writes to any.
///
/// The names are parts of the source, by a table as [`read_words`] gives it: a
/// number whose name has length 0 is called `v3` or `f3`. A table of another
/// length than 192 words is refused with [`Outcome::WrongSize`].
///
/// [`write`](crate::write()) and [`Program::write`](crate::Program::write) give
/// the text itself, and a refusal that is typed.
pub fn write_words(program: &[i32], source: &[u8], names: &[i32], text: &mut [u8]) -> Writing {
    let mut answer = [-1; 4];
    // SAFETY: as in `run_words`.
    let bytes = unsafe {
        cordbasin_write(
            program.as_ptr(),
            program.len(),
            source.as_ptr(),
            source.len(),
            names.as_ptr(),
            names.len(),
            text.as_mut_ptr(),
            text.len(),
            &mut answer,
        )
    };
    match written(answer, bytes, text.len()) {
        Some(writing) => writing,
        None => panic!("libcordbasin.a gave {answer:?} and {bytes} bytes"),
    }
}

fn written(
    [outcome, place, variables, labels]: [i32; 4],
    bytes: usize,
    lent: usize,
) -> Option<Writing> {
    Some(Writing {
        outcome: Outcome::of_number(outcome)?,
        place: usize::try_from(place).ok()?,
        bytes: Some(bytes).filter(|bytes| *bytes <= lent)?,
        variables: usize::try_from(variables).ok()?,
        labels: usize::try_from(labels).ok()?,
    })
}
