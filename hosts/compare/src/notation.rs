//! The papers' notation: what the C call and the independent program read from
//! the same text. Where the call is not x86-64 code, that code reads it too.

use crate::comparison::Stop;
use crate::lister::shown;
use crate::proved::Proved;
use reference::generator::texts;
use reference::text::{self, NAME_WORDS, PROGRAM_WORDS};
use std::collections::BTreeMap;
use std::fmt;
use std::io;

/// What the lent words hold before a text is read.
const BEFORE: i32 = -77;

/// The words of program, origins and names.
const LENGTHS: [usize; 3] = [PROGRAM_WORDS, PROGRAM_WORDS, NAME_WORDS];

/// In a table of names the labels follow so many variables.
const VARIABLES: usize = 64;

/// How many texts were compared, all of them the same, by outcome.
#[derive(Debug, Default)]
pub struct Tally {
    pub outcomes: BTreeMap<i32, u64>,
    pub bytes: usize,
    pub words: usize,
    /// How many of them were read by x86-64 code under the emulator too.
    pub emulated: u64,
}

/// All that a reading leaves.
#[derive(Debug, PartialEq, Eq)]
struct Left {
    outcome: i32,
    place: usize,
    variables: usize,
    labels: usize,
    words: usize,
    program: Vec<i32>,
    origins: Vec<i32>,
    names: Vec<i32>,
}

pub fn compare(seed: u64, count: u64) -> Result<Tally, Stop> {
    let mut proved = Proved::start()?;
    let mut tally = Tally::default();
    for index in 0..count {
        let text = texts::text(seed, index);
        let named =
            |difference| Stop::Difference(format!("text {index} of seed {seed}\n{difference}"));
        let (outcome, words) = compare_text(&text).map_err(named)?;
        if let Some(left) = emulated(&mut proved, &text)? {
            same(&text, left, read(&text, LENGTHS)).map_err(named)?;
            tally.emulated += 1;
        }
        *tally.outcomes.entry(outcome).or_default() += 1;
        tally.bytes += text.len();
        tally.words += words;
    }
    Ok(tally)
}

/// Outcome and number of words, where both leave the same: in words of the
/// right lengths, and in some of another length.
pub fn compare_text(text: &[u8]) -> Result<(i32, usize), String> {
    let read = compare_lent(text, LENGTHS)?;
    let wrong = LENGTHS.get(text.len() % 3).copied().unwrap_or_default();
    compare_lent(text, LENGTHS.map(|n| if n == wrong { n - 1 } else { n }))?;
    Ok(read)
}

/// The whole answer of the C call in the lines of a `.read` of sheets/notation.
pub fn answer(text: &[u8]) -> String {
    let left = call(text, LENGTHS);
    let mut lines = vec![
        format!("outcome={}", left.outcome),
        format!("place={}", left.place),
        format!("variables={}", left.variables),
        format!("labels={}", left.labels),
    ];
    if left.outcome == 0 {
        let used = |words: &[i32]| list(words.get(..left.words).unwrap_or(words));
        lines.push(format!("words={}", used(&left.program)));
        lines.push(format!("origins={}", used(&left.origins)));
        let names = left.names.chunks(2).enumerate();
        lines.extend(names.filter(|(_, name)| *name != [0, 0]).map(named));
    }
    lines.join("\n") + "\n"
}

/// Words as the sheets list them.
pub fn list(words: &[i32]) -> String {
    let words: Vec<String> = words.iter().map(i32::to_string).collect();
    words.join(" ")
}

/// `v` and `l` with their numbers, and the place and length of the name.
pub fn named((number, name): (usize, &[i32])) -> String {
    match number.checked_sub(VARIABLES) {
        None => format!("v{number}={}", list(name)),
        Some(label) => format!("l{label}={}", list(name)),
    }
}

fn compare_lent(text: &[u8], lengths: [usize; 3]) -> Result<(i32, usize), String> {
    same(text, call(text, lengths), read(text, lengths))
}

fn same(text: &[u8], proved: Left, independent: Left) -> Result<(i32, usize), String> {
    if proved == independent {
        return Ok((proved.outcome, proved.words));
    }
    Err(format!(
        "{}\nproved: {proved:?}\nindependent: {independent:?}",
        shown(text)
    ))
}

fn lent(lengths: [usize; 3]) -> [Vec<i32>; 3] {
    lengths.map(|length| vec![BEFORE; length])
}

fn call(text: &[u8], lengths: [usize; 3]) -> Left {
    let [mut program, mut origins, mut names] = lent(lengths);
    let reading = cordbasin::read_words(text, &mut program, &mut origins, &mut names);
    Left {
        outcome: reading.outcome.number(),
        place: reading.place,
        variables: reading.variables,
        labels: reading.labels,
        words: reading.words,
        program,
        origins,
        names,
    }
}

/// What x86-64 code leaves, where the call is other code.
fn emulated(proved: &mut Proved, text: &[u8]) -> io::Result<Option<Left>> {
    let mut lent = lent(LENGTHS);
    let told = proved.read(text, &mut lent)?;
    let [program, origins, names] = lent;
    let number = |word: i32| usize::try_from(word).unwrap_or(usize::MAX);
    Ok(
        told.map(|([outcome, place, variables, labels], words)| Left {
            outcome,
            place: number(place),
            variables: number(variables),
            labels: number(labels),
            words,
            program,
            origins,
            names,
        }),
    )
}

fn read(text: &[u8], lengths: [usize; 3]) -> Left {
    let [mut program, mut origins, mut names] = lent(lengths);
    let answer = text::read_into(text, &mut program, &mut origins, &mut names);
    Left {
        outcome: answer.outcome,
        place: answer.place,
        variables: answer.variables,
        labels: answer.labels,
        words: answer.words,
        program,
        origins,
        names,
    }
}

impl fmt::Display for Tally {
    fn fmt(&self, out: &mut fmt::Formatter<'_>) -> fmt::Result {
        let texts: u64 = self.outcomes.values().sum();
        write!(
            out,
            "{texts} texts the same, {} bytes, {} words;",
            self.bytes, self.words
        )?;
        for (outcome, texts) in &self.outcomes {
            write!(out, " {outcome}: {texts}")?;
        }
        match self.emulated {
            0 => Ok(()),
            texts => write!(out, "; {texts} of them by x86-64 code too"),
        }
    }
}
