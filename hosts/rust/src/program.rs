//! A program that was typed: its words, its names, and where each word stands
//! in the text.

use crate::answer::{Answer, Outcome};
use crate::asking::Asked;
use crate::call::{read_words, LONGEST_PROGRAM, LONGEST_TEXT, NAMES_WORDS};
use crate::entry::{Entry, Literal, LONGEST_PATH};
use crate::text::{written, Unwritten};
use core::fmt;

const FIRST_LABEL: usize = 128;

/// A program that was read from a text in the papers' notation.
///
/// Prints as [`Program::write`] writes it; where that would be too long, as it
/// was typed, which reads to the same words.
#[derive(Clone, Debug)]
pub struct Program<'t> {
    text: &'t str,
    words: [i32; LONGEST_PROGRAM],
    origins: [i32; LONGEST_PROGRAM],
    names: [i32; NAMES_WORDS],
    count: usize,
    variables: usize,
    labels: usize,
}

/// A refusal and its place in the text: of a text that is no program, of a run
/// of its program, or of two solvers on a statement of it.
///
/// Prints the number and what it says with line and column, then the text's
/// line, and a mark under the place.
#[derive(Clone, Copy, Debug, PartialEq, Eq)]
pub struct Refusal<'t> {
    /// 20 to 22 for a text, 4 to 19 for a run, 2 or 4 to 19 for two solvers,
    /// but for 5 and 11.
    pub outcome: Outcome,
    /// The token at which the text is refused, or that the word at the place
    /// comes from.
    pub spot: Spot<'t>,
    says: &'static str,
}

/// A place in a text.
///
/// Prints the line that it is in, and a mark under it.
#[derive(Clone, Copy, Debug, PartialEq, Eq)]
pub struct Spot<'t> {
    /// The byte, from 0.
    pub place: usize,
    /// The line, from 1.
    pub line: usize,
    /// The column, from 1, in characters.
    pub column: usize,
    /// The line's text.
    pub shown: &'t str,
}

impl<'t> Program<'t> {
    /// Reads a text. `docs/NOTATION.md` has the notation on a page.
    pub fn read(text: &'t str) -> Result<Program<'t>, Refusal<'t>> {
        let mut program = Program {
            text,
            words: [0; LONGEST_PROGRAM],
            origins: [0; LONGEST_PROGRAM],
            names: [0; NAMES_WORDS],
            count: 0,
            variables: 0,
            labels: 0,
        };
        let reading = read_words(
            text.as_bytes(),
            &mut program.words,
            &mut program.origins,
            &mut program.names,
        );
        if reading.outcome != Outcome::Finished {
            return Err(Refusal {
                outcome: reading.outcome,
                spot: Spot::of(text, reading.place),
                says: reading.outcome.says(),
            });
        }
        program.count = reading.words;
        program.variables = reading.variables;
        program.labels = reading.labels;
        Ok(program)
    }

    /// The words that [`run`](crate::run) takes.
    pub fn words(&self) -> &[i32] {
        self.words.get(..self.count).unwrap_or_default()
    }

    /// Writes the program with its own names into a room that the host lends: a
    /// statement to a line, one space around operators, every priority, and
    /// brackets only where they are needed. The text can be longer than the one
    /// that was typed, and [`Unwritten::TooLong`] is all that refuses it.
    pub fn write<'r>(&self, room: &'r mut [u8]) -> Result<&'r str, Unwritten> {
        written(self.words(), self.text.as_bytes(), &self.names, room)
    }

    /// The names of the variables, each at its number.
    pub fn variables(&self) -> impl Iterator<Item = &'t str> + '_ {
        (0..self.variables).map(|number| self.name(2 * number))
    }

    /// The names of the labels, each at its number.
    pub fn labels(&self) -> impl Iterator<Item = &'t str> + '_ {
        (0..self.labels).map(|number| self.name(FIRST_LABEL + 2 * number))
    }

    /// The number of the variable with this name.
    pub fn variable(&self, name: &str) -> Option<usize> {
        self.variables().position(|other| other == name)
    }

    /// The number of the label with this name.
    pub fn label(&self, name: &str) -> Option<usize> {
        self.labels().position(|other| other == name)
    }

    /// The entry of a list whose target is a path, typed as in a text without
    /// white space: `x.bytes`. There is none where the program has no such
    /// name, and for more than 7 labels.
    pub fn entry(&self, path: &str, literal: Literal) -> Option<Entry> {
        let mut names = path.split('.');
        let variable = self.variable(names.next()?)?;
        let (mut labels, mut count) = ([0; LONGEST_PATH], 0);
        for name in names {
            *labels.get_mut(count)? = self.label(name)?;
            count += 1;
        }
        Entry::new(variable, labels.get(..count)?, literal)
    }

    /// A run's refusal in the text that was typed. For 7, 8, 9 and 15 the mark
    /// is under the word at fault, for the others under the beginning of the
    /// statement.
    ///
    /// There is none where the run finished, and for 1 to 3, whose places are
    /// no words of a program that was read.
    ///
    /// The answer must be of a run of this program's words.
    pub fn refusal(&self, answer: &Answer) -> Option<Refusal<'t>> {
        if answer.outcome < Outcome::UnfitStart {
            return None;
        }
        Some(Refusal {
            outcome: answer.outcome,
            spot: self.spot(answer.place)?,
            says: answer.outcome.says(),
        })
    }

    /// As [`Program::refusal`], of two solvers on one statement. For 2 the mark
    /// is under the word that was asked about.
    ///
    /// There is none where a proposal was accepted, for 1 and 3, and for a word
    /// that the program does not have; the answer prints these by itself.
    pub fn asked_refusal(&self, asked: &Asked) -> Option<Refusal<'t>> {
        let has_word = !matches!(
            asked.outcome,
            Outcome::Finished | Outcome::WrongSize | Outcome::UnfitTable
        );
        let word = usize::try_from(asked.place).ok()?;
        let spot = self.spot(word).filter(|_| has_word && word < self.count);
        Some(Refusal {
            outcome: asked.outcome,
            spot: spot?,
            says: asked.says(),
        })
    }

    /// Where the token stands that a word of the program comes from; for the
    /// program's length the text's end.
    pub fn spot(&self, word: usize) -> Option<Spot<'t>> {
        if word == self.count {
            return Some(Spot::of(self.text, self.text.len()));
        }
        let origins = self.origins.get(..self.count)?;
        let place = usize::try_from(*origins.get(word)?).ok()?;
        Some(Spot::of(self.text, place))
    }

    /// The name whose place and length begin at a word of the table.
    fn name(&self, at: usize) -> &'t str {
        let word = |at: usize| usize::try_from(*self.names.get(at)?).ok();
        let part = |from: usize, length: usize| self.text.get(from..from.checked_add(length)?);
        let name = word(at).zip(word(at + 1));
        name.and_then(|(from, length)| part(from, length))
            .unwrap_or_default()
    }
}

impl<'t> Spot<'t> {
    /// A byte of a text, with the line that it is in. A byte inside a character
    /// is taken for the character's first.
    pub fn of(text: &'t str, place: usize) -> Spot<'t> {
        let place = place.min(text.len());
        let near = (0..=place).rev().find(|byte| text.is_char_boundary(*byte));
        let (before, after) = text.split_at(near.unwrap_or(0));
        let start = before.rfind('\n').map_or(0, |newline| newline + 1);
        let end = after
            .find('\n')
            .map_or(text.len(), |more| before.len() + more);
        let shown = text.get(start..end).unwrap_or_default();
        Spot {
            place,
            line: before.matches('\n').count() + 1,
            column: text
                .get(start..before.len())
                .map_or(0, |line| line.chars().count())
                + 1,
            shown: shown.strip_suffix('\r').unwrap_or(shown),
        }
    }
}

impl fmt::Display for Program<'_> {
    fn fmt(&self, out: &mut fmt::Formatter<'_>) -> fmt::Result {
        let mut room = [0; LONGEST_TEXT];
        out.pad(self.write(&mut room).unwrap_or(self.text))
    }
}

impl fmt::Display for Spot<'_> {
    fn fmt(&self, out: &mut fmt::Formatter<'_>) -> fmt::Result {
        writeln!(out, "{}", self.shown)?;
        let before = self.shown.chars().chain(core::iter::repeat(' '));
        for character in before.take(self.column.saturating_sub(1)) {
            let blank = if character == '\t' { '\t' } else { ' ' };
            write!(out, "{blank}")?;
        }
        write!(out, "^")
    }
}

impl fmt::Display for Refusal<'_> {
    fn fmt(&self, out: &mut fmt::Formatter<'_>) -> fmt::Result {
        let (line, column) = (self.spot.line, self.spot.column);
        let (number, says) = (self.outcome.number(), self.says);
        writeln!(out, "{number} at line {line}, column {column}: {says}")?;
        write!(out, "{}", self.spot)
    }
}

impl core::error::Error for Refusal<'_> {}
