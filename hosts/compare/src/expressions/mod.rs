//! Paths, expressions and constraints over generated tables: both answers.

pub mod grown;
pub mod held;
pub mod independent;
pub mod lent;
pub mod questions;
mod sheets;
mod unread;

use crate::comparison::Stop;
use crate::proved::{Call, Four, Proved};
use questions::Drawn;
use std::collections::BTreeMap;
use std::fmt;

/// How much was compared, all of it the same.
#[derive(Debug, Default)]
pub struct Tally {
    /// Expressions and constraints.
    pub pieces: u64,
    pub tables: u64,
    pub fit: u64,
    pub left_out: u64,
    /// How often each call gave each answer.
    pub answers: BTreeMap<(Call, String), u64>,
}

/// Compares questions until there are so many expressions and constraints.
pub fn compare(seed: u64, count: u64) -> Result<Tally, Stop> {
    let mut proved = Proved::start()?;
    let mut tally = Tally::default();
    let mut index = 0;
    while tally.pieces < count {
        compare_question(&mut proved, &mut tally, questions::question(seed, index))?;
        index += 1;
    }
    Ok(tally)
}

fn compare_question(proved: &mut Proved, tally: &mut Tally, drawn: Drawn) -> Result<(), Stop> {
    let question = &drawn.question;
    let independent = independent::answers(question, &drawn.tables);
    let answers = proved.ask_pieces(question)?;
    tally.tables += 1;
    tally.fit += u64::from(drawn.fit);
    for ((piece, answer), own) in question.pieces.iter().zip(&answers).zip(independent) {
        // Fit tables have no unfit label, so that there is always an answer.
        let differs = own.map_or(drawn.fit, |own| own != *answer);
        if differs {
            return Err(Stop::Difference(format!(
                "{question:?}\n{piece:?}\nproved: {answer:?}\nindependent: {own:?}"
            )));
        }
        if own.is_none() {
            tally.left_out += 1;
            continue;
        }
        tally.pieces += u64::from(matches!(piece.call, Call::Expression | Call::Constraint));
        let name = (piece.call, name(piece.call, answer));
        *tally.answers.entry(name).or_default() += 1;
    }
    Ok(())
}

/// What kind of answer it is.
fn name(call: Call, answer: &Four) -> String {
    let name = match (call, answer) {
        (Call::Path, [0, ..]) => "cell",
        (Call::Expression, [0, 1, ..]) => "nil",
        (Call::Expression, [0, 2, ..]) => "boolean",
        (Call::Expression, [0, 3, ..]) => "integer",
        (Call::Expression, [0, ..]) => "reference",
        (Call::Test, [0, 1, ..]) => "true",
        (Call::Test, [0, ..]) => "false",
        (_, [0, 1, ..]) => "satisfied",
        (_, [0, _, 1, _]) => "required satisfied",
        (_, [0, ..]) => "unsatisfied",
        (_, [number, ..]) => return format!("refused {number}"),
    };
    name.to_string()
}

impl fmt::Display for Tally {
    fn fmt(&self, out: &mut fmt::Formatter<'_>) -> fmt::Result {
        write!(
            out,
            "{} expressions and constraints the same over {} tables, {} of them fit, {} left out",
            self.pieces, self.tables, self.fit, self.left_out
        )?;
        let mut last = None;
        for ((call, name), count) in &self.answers {
            match last.replace(*call) == Some(*call) {
                true => write!(out, ", ")?,
                false => write!(out, "; {call:?}: ")?,
            }
            write!(out, "{name} {count}")?;
        }
        Ok(())
    }
}
