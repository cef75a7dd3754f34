//! The generated texts: always the same ones, of every answer and limit, and
//! read to what they were printed from.

mod common;

use common::judge::{tokens, Token};
use reference::generator::texts::{sample, text, Expected};
use reference::program::Program;
use reference::text::{read, Limit, Reading};
use std::collections::BTreeMap;

const SEED: u64 = 20_240_501;

fn readings(count: u64) -> impl Iterator<Item = (Vec<u8>, Reading)> {
    (0..count).map(|index| {
        let text = text(SEED, index);
        let reading = read(&text);
        (text, reading)
    })
}

fn shown(text: &[u8]) -> String {
    String::from_utf8_lossy(text.get(..3000).unwrap_or(text)).into_owned()
}

/// What comes up among 10,000 texts.
#[derive(Default)]
struct Survey {
    outcomes: BTreeMap<i32, usize>,
    limits: BTreeMap<Limit, usize>,
    /// The sorts of tokens on which the words become too many.
    sorts: BTreeMap<String, usize>,
    /// Texts of 65,536 bytes that read, longer ones that are refused before
    /// that, and texts with thousands of brackets that read.
    exact: usize,
    longer: usize,
    bracketed: usize,
}

impl Survey {
    fn add(&mut self, text: &[u8], reading: &Reading) {
        *self.outcomes.entry(reading.outcome).or_default() += 1;
        if let Some(limit) = reading.limit {
            *self.limits.entry(limit).or_default() += 1;
        }
        if reading.limit == Some(Limit::Words) {
            let tokens = tokens(text);
            let at = |token: &&Token| token.place == reading.place;
            let token = tokens.iter().find(at).expect("a token at the place");
            *self.sorts.entry(token.sort.clone()).or_default() += 1;
        }
        let brackets = text.iter().filter(|byte| **byte == b'(').count();
        let read = reading.outcome == 0;
        self.exact += usize::from(text.len() == 65_536 && read);
        self.longer += usize::from(text.len() > 65_536 && reading.place < 65_536);
        self.bracketed += usize::from(brackets > 1000 && read);
    }
}

#[test]
fn every_answer_and_limit_comes_up() {
    let mut survey = Survey::default();
    for (text, reading) in readings(10_000) {
        survey.add(&text, &reading);
    }
    let (outcomes, limits) = (&survey.outcomes, &survey.limits);
    println!("{outcomes:?} {limits:?}");
    let numbers: Vec<i32> = outcomes.keys().copied().collect();
    assert_eq!(numbers, [0, 20, 21, 22]);
    assert!(outcomes.values().all(|texts| *texts >= 500), "{outcomes:?}");
    let passed: Vec<Limit> = limits.keys().copied().collect();
    assert_eq!(passed, Limit::ALL);
    assert!(limits.values().all(|texts| *texts >= 20), "{limits:?}");
    check_sorts(&survey.sorts);
    let sizes = (survey.exact, survey.longer, survey.bracketed);
    println!("{sizes:?}");
    assert!(sizes.0 >= 20 && sizes.1 >= 20 && sizes.2 >= 20, "{sizes:?}");
}

/// The words become too many on every sort of token that has words, or that
/// brings those which are owed.
fn check_sorts(sorts: &BTreeMap<String, usize>) {
    println!("{sorts:?}");
    for sort in [
        "name", "number", "nil", "true", "false", "skip", "always", "once", "weak", "medium",
        "required", "if", "while", "{", "(", "+", "-", "*", "<", "<=", "=", "!=", ">=", ">", "and",
        "or", ";", "}", "/\\", "end",
    ] {
        assert!(sorts.contains_key(sort), "never on {sort}: {sorts:?}");
    }
    for sort in [";", "}", "/\\", "end", "="] {
        assert!(sorts[sort] >= 10, "{sort}: {sorts:?}");
    }
}

/// What the printer knows of a text is what the reader finds in it.
#[test]
fn texts_are_read_to_what_they_were_printed_from() {
    let mut known = 0;
    for index in 0..6000 {
        let sample = sample(SEED, index);
        let Some(expected) = sample.expected else {
            continue;
        };
        let reading = read(&sample.text);
        let answer = (reading.outcome, reading.place);
        assert_eq!(answer, (0, sample.text.len()), "{}", shown(&sample.text));
        let found = Expected {
            words: reading.words,
            origins: reading.origins,
            names: reading.names,
            variables: reading.variables,
            labels: reading.labels,
        };
        assert_eq!(found, expected, "{}", shown(&sample.text));
        known += 1;
    }
    assert!(known > 2000, "{known}");
}

/// Whatever is accepted is a program, and each of its words comes from a
/// token; whatever is refused has nothing but its number and place.
#[test]
fn accepted_words_are_programs() {
    for (text, reading) in readings(5000) {
        let limit = reading.limit;
        let (outcome, place) = (reading.outcome, reading.place);
        if outcome > 0 {
            let bare = Reading {
                outcome,
                place,
                limit,
                ..Reading::default()
            };
            assert_eq!(reading, bare);
            assert!(place <= text.len());
            continue;
        }
        assert!(Program::decode(&reading.words).is_ok(), "{}", shown(&text));
        assert_eq!(reading.origins.len(), reading.words.len());
        assert_eq!(reading.names.len(), 192);
        check_names(&text, &reading);
    }
}

/// Names stand where the table says, all different, in the order of numbers.
fn check_names(text: &[u8], reading: &Reading) {
    let (variables, labels) = reading.names.split_at(128);
    for (table, used) in [(variables, reading.variables), (labels, reading.labels)] {
        let pairs: Vec<(usize, usize)> = table
            .chunks(2)
            .map(|pair| (pair[0] as usize, pair[1] as usize))
            .collect();
        let names: Vec<&[u8]> = pairs[..used]
            .iter()
            .map(|(place, length)| &text[*place..place + length])
            .collect();
        assert!(names.iter().all(|name| name[0].is_ascii_lowercase()));
        assert!(pairs[..used].is_sorted_by(|left, right| left.0 < right.0));
        assert!(pairs[used..].iter().all(|pair| *pair == (0, 0)));
        let different = names
            .iter()
            .enumerate()
            .all(|(n, name)| !names[..n].contains(name));
        assert!(different, "{}", shown(text));
    }
}

#[test]
fn a_seed_and_number_give_the_same_text() {
    for index in 0..300 {
        assert_eq!(sample(SEED, index), sample(SEED, index));
    }
    assert_ne!(text(SEED, 0), text(SEED + 1, 0));
    assert_ne!(text(SEED, 0), text(SEED, 1));
}

/// A sum of all bytes that depends on their order.
fn digest(bytes: impl Iterator<Item = u8>) -> u64 {
    let step = |sum: u64, byte| (sum ^ u64::from(byte)).wrapping_mul(0x0100_0000_01b3);
    bytes.fold(0xcbf2_9ce4_8422_2325, step)
}

#[test]
fn the_same_texts_on_every_machine() {
    let bytes = (0..500).flat_map(|index| text(1, index));
    assert_eq!(digest(bytes), 1_504_201_151_644_673_314);
}
