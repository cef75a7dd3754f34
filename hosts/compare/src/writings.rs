//! Programs as texts: what `cordbasin_write` and the independent program write
//! with the same names, and what `cordbasin_read` reads from it. Where the call
//! is not x86-64 code, that code writes it too.

use crate::comparison::Stop;
use crate::lister::shown;
use crate::notation::{list, named};
use crate::proved::Proved;
use cordbasin::{Outcome, Reading};
use reference::generator::writings::{self, WriteCase, FILL};
use reference::text::{NAME_WORDS, PROGRAM_WORDS};
use reference::writer::Answer;
use std::collections::BTreeMap;
use std::fmt;
use std::io;

/// Those that a writing may end with. From so many writings on, each must come
/// up at least once in so many.
pub const OUTCOMES: [i32; 5] = [0, 1, 2, 24, 25];
const LONG_RUN: u64 = 100_000;
const ONCE_IN: u64 = 100;

/// A difference shows so many of the lent bytes.
const SHOWN: usize = 60;

/// How many writings were compared, all of them the same, by outcome.
#[derive(Debug, Default)]
pub struct Tally {
    pub outcomes: BTreeMap<i32, u64>,
    /// Of the programs that were written, and of their texts.
    pub words: usize,
    pub bytes: usize,
    /// How many of them were written by x86-64 code under the emulator too.
    pub emulated: u64,
}

/// The answer, and all the lent bytes after it.
pub type Left = (Answer, Vec<u8>);

pub fn compare(seed: u64, count: u64) -> Result<Tally, Stop> {
    let mut proved = Proved::start()?;
    let mut tally = Tally::default();
    for index in 0..count {
        let case = writings::case(seed, index);
        let stop =
            |difference| Stop::Difference(format!("writing {index} of seed {seed}\n{difference}"));
        let left = compare_case(&case).map_err(stop)?;
        if let Some(other) = emulated(&mut proved, &case)? {
            same(&case, &other, "independent", &left).map_err(stop)?;
            tally.emulated += 1;
        }
        tally.count(&case, &left.0);
    }
    match count >= LONG_RUN && !tally.is_met(count / ONCE_IN) {
        true => Err(Stop::Rare(format!("{tally}\ntoo few of an outcome"))),
        false => Ok(tally),
    }
}

/// What both leave, where that is the same and a text comes back.
pub fn compare_case(case: &WriteCase) -> Result<Left, String> {
    let left = call(case);
    same(case, &left, "independent", &case.answer())?;
    if left.0.outcome == 0 {
        comes_back(case, &left)?;
    }
    Ok(left)
}

/// What the C call leaves.
pub fn call(case: &WriteCase) -> Left {
    let mut text = vec![FILL; case.room];
    let told = cordbasin::write_words(&case.program, &case.source, &case.names, &mut text);
    let answer = Answer {
        outcome: told.outcome.number(),
        place: told.place,
        variables: told.variables,
        labels: told.labels,
        bytes: told.bytes,
    };
    (answer, text)
}

/// What x86-64 code leaves, where the call is other code.
fn emulated(proved: &mut Proved, case: &WriteCase) -> io::Result<Option<Left>> {
    let mut text = vec![FILL; case.room];
    let told = proved.write(&case.program, &case.source, &case.names, &mut text)?;
    // A number that no call gives becomes one that differs from every answer.
    let number = |word: i32| usize::try_from(word).unwrap_or(usize::MAX);
    Ok(told.map(|([outcome, place, variables, labels], bytes)| {
        let answer = Answer {
            outcome,
            place: number(place),
            variables: number(variables),
            labels: number(labels),
            bytes,
        };
        (answer, text)
    }))
}

/// The text of a difference tells the case, both answers, and some of the lent
/// bytes from the first one on that differs.
fn same(case: &WriteCase, proved: &Left, who: &str, other: &Left) -> Result<(), String> {
    if proved == other {
        return Ok(());
    }
    let pairs = proved.1.iter().zip(&other.1);
    let start = pairs.take_while(|(one, other)| one == other).count();
    let told = |(answer, text): &Left| {
        let bytes: Vec<u8> = text.iter().skip(start).take(SHOWN).copied().collect();
        format!("{answer:?}, from byte {start} on: {}", shown(&bytes))
    };
    let (proved, other) = (told(proved), told(other));
    Err(format!("{}\nproved: {proved}\n{who}: {other}", line(case)))
}

/// What was written is read to the same words, with as many variables and
/// labels; written again with the names that are told, it gives the same bytes.
fn comes_back(case: &WriteCase, (answer, lent): &Left) -> Result<(), String> {
    let text = lent.get(..answer.bytes).unwrap_or(lent);
    let (mut program, mut origins) = ([0; PROGRAM_WORDS], [0; PROGRAM_WORDS]);
    let mut names = [0; NAME_WORDS];
    let reading = cordbasin::read_words(text, &mut program, &mut origins, &mut names);
    let due = Reading {
        outcome: Outcome::Finished,
        place: text.len(),
        words: case.program.len(),
        variables: answer.variables,
        labels: answer.labels,
    };
    let words = program.get(..reading.words).unwrap_or(&program);
    if reading != due || words != case.program {
        return Err(format!(
            "{}\nread back: {reading:?}\n{}\nfrom: {}",
            line(case),
            list(words),
            shown(text)
        ));
    }
    let again = WriteCase {
        program: words.to_vec(),
        source: text.to_vec(),
        names: names.to_vec(),
        room: text.len(),
    };
    same(
        &again,
        &call(&again),
        "written first",
        &(*answer, text.to_vec()),
    )
}

fn line(case: &WriteCase) -> String {
    let pairs = case.names.chunks(2).enumerate();
    let names: Vec<String> = pairs
        .filter(|(_, name)| name.iter().any(|word| *word != 0))
        .map(named)
        .collect();
    format!(
        "program={}\n{} words of names: {}\nsource={}\nroom={}",
        list(&case.program),
        case.names.len(),
        names.join(", "),
        shown(&case.source),
        case.room
    )
}

impl Tally {
    fn count(&mut self, case: &WriteCase, answer: &Answer) {
        *self.outcomes.entry(answer.outcome).or_default() += 1;
        if answer.outcome == 0 {
            self.words += case.program.len();
            self.bytes += answer.bytes;
        }
    }

    /// Whether each outcome came up so often.
    pub fn is_met(&self, least: u64) -> bool {
        let counts = OUTCOMES.map(|outcome| self.outcomes.get(&outcome));
        counts.iter().all(|count| count >= &Some(&least))
    }
}

impl fmt::Display for Tally {
    fn fmt(&self, out: &mut fmt::Formatter<'_>) -> fmt::Result {
        let writings: u64 = self.outcomes.values().sum();
        write!(
            out,
            "{writings} writings the same, {} words, {} bytes;",
            self.words, self.bytes
        )?;
        for (outcome, writings) in &self.outcomes {
            write!(out, " {outcome}: {writings}")?;
        }
        match self.emulated {
            0 => Ok(()),
            writings => write!(out, "; {writings} of them by x86-64 code too"),
        }
    }
}
