//! Askings for comparing two programs: a seed and a number give an asking.

pub mod classes;
mod placed;
mod question;
mod slices;
pub mod starts;
pub mod words;

use super::compose::Composer;
use super::damage::spoil_list;
use super::draft::Draft;
use super::limits;
use super::lists::{asked, ready};
use super::numbers::Numbers;
use super::wishes;
use crate::batch::Asking;
use crate::outcome::Outcome;
use crate::program::{Program, Statement};
use crate::proposal::Proposal;
use crate::tables::{Kind, Value};
pub use classes::histogram;
use classes::OWN;
use placed::place;
use question::{of_sheet, Question};
use slices::slice;

/// Most states that are looked at for one asking.
const MOST_TRIES: usize = 40;

/// The asking of a seed and number, the same on every machine.
pub fn asking(seed: u64, index: u64) -> Asking {
    let mut numbers = Numbers::new(seed, index);
    match numbers.below(100) {
        0..=39 => tried(&mut numbers, 10, any),
        40..=44 => tried(&mut numbers, 70, any),
        45..=62 => refused(&mut numbers),
        63..=73 => words::asking(&mut numbers),
        74..=87 => starts::asking(&mut numbers),
        88..=93 => tried(&mut numbers, 10, kept_already),
        94 | 95 => at_limits(&mut numbers),
        96 | 97 => damaged(&mut numbers),
        _ => extreme(&mut numbers),
    }
}

/// Numbers of their own for one of several states.
fn own(numbers: &mut Numbers) -> Numbers {
    let mut own = Numbers::new(numbers.next(), 8);
    own.extremes = numbers.extremes;
    own
}

/// Both slices as they were wished for, if that can be had. So many in a
/// hundred have words left over.
fn tried(numbers: &mut Numbers, left: usize, about: fn(&mut Numbers) -> Question) -> Asking {
    let [first, second] = slices::wishes(numbers, left);
    for _ in 0..MOST_TRIES {
        let question = about(numbers);
        let first = slice(&question, numbers, first);
        let second = slice(&question, numbers, second);
        if let (Some(first), Some(second)) = (first, second) {
            return question.asking(first, second);
        }
    }
    about(numbers).asking(vec![0], Vec::new())
}

/// A draft whose program has been run, sometimes with little room left.
fn state(numbers: &mut Numbers) -> Draft {
    let draft = ready(own(numbers));
    match numbers.below(30) {
        0 => wishes::filled(draft, Outcome::HeapFull),
        1 => wishes::filled(draft, Outcome::NoRoom),
        _ => draft,
    }
}

/// Asks about a statement of any sort and depth in a state that a run left,
/// sometimes about one of those that were run.
fn any(numbers: &mut Numbers) -> Question {
    loop {
        let mut draft = state(numbers);
        let question = match numbers.chance(15) {
            true => {
                let (program, tables) = (draft.program(), draft.tables);
                let word = among(numbers, &program, Statement::reads_proposal);
                word.and_then(|word| Question::new(program, tables, word))
            }
            false => {
                let sort = numbers.between(1, 4);
                let statement = statement(&mut draft.composer(), sort);
                place(draft, statement)
            }
        };
        if let Some(question) = question {
            return question;
        }
    }
}

/// Asks again about an always-statement that is kept.
fn kept_already(numbers: &mut Numbers) -> Question {
    loop {
        let draft = state(numbers);
        let kept = numbers.pick(&draft.tables.values);
        let word = kept.and_then(|position| i32::try_from(position).ok());
        let question = word.and_then(|word| Question::new(draft.program(), draft.tables, word));
        if let Some(question) = question {
            return question;
        }
    }
}

/// The statement refuses by itself, whatever the slices.
fn refused(numbers: &mut Numbers) -> Asking {
    let outcome = numbers.pick(&OWN).unwrap_or(OWN[0]);
    let slices = [(); 2].map(|()| unread(numbers));
    for _ in 0..MOST_TRIES {
        let mut draft = wishes::filled(ready(own(numbers)), outcome);
        let statement = wishes::statement(&mut draft, outcome);
        let is_asked = matches!(statement.first(), Some(1..=4));
        if !is_asked || draft.attempt(&statement) != Err(outcome) {
            continue;
        }
        if let Some(question) = place(draft, statement) {
            let [first, second] = slices;
            return question.asking(first, second);
        }
    }
    tried(numbers, 10, any)
}

/// A slice that is not looked at: none, one that changes nothing, or any.
fn unread(numbers: &mut Numbers) -> Vec<i32> {
    match numbers.below(10) {
        0..=3 => Vec::new(),
        4..=7 => vec![0],
        8 => vec![1, numbers.between(0, 70), numbers.small()],
        _ => (0..numbers.below(5)).map(|_| numbers.word()).collect(),
    }
}

/// A program or tables at a limit of document 01, or past it, asked about a
/// statement of the program where it reads.
fn at_limits(numbers: &mut Numbers) -> Asking {
    let sheet = limits::sheet(numbers);
    let word = among(numbers, &sheet.program, Statement::reads_proposal);
    let word = word.unwrap_or_else(|| numbers.between(0, 9));
    let all = sheet.proposals.clone();
    let length = Proposal::read(&all).map_or(0, |proposal| proposal.length());
    let one = all.get(..length).unwrap_or(&[]).to_vec();
    match numbers.below(4) {
        0 => of_sheet(sheet, word, all, one),
        1 => of_sheet(sheet, word, Vec::new(), one),
        2 => of_sheet(sheet, word, one, all),
        _ => of_sheet(sheet, word, all, Vec::new()),
    }
}

/// Slices with something in them spoilt.
fn damaged(numbers: &mut Numbers) -> Asking {
    let mut asking = tried(numbers, 10, any);
    spoil_list(numbers, &mut asking.first);
    if numbers.chance(50) {
        spoil_list(numbers, &mut asking.second);
    }
    asking
}

/// Programs, tables and slices full of extreme numbers.
fn extreme(numbers: &mut Numbers) -> Asking {
    numbers.extremes = 50;
    tried(numbers, 10, any)
}

/// The word of a statement that a program has, of those that are wanted.
fn among(
    numbers: &mut Numbers,
    program: &[i32],
    wanted: impl Fn(&Statement) -> bool,
) -> Option<i32> {
    let tree = Program::decode(program).ok()?;
    let all = tree.statements().into_iter().map(|(_, own)| own);
    let wanted: Vec<usize> = all
        .filter(|own| wanted(own))
        .map(|own| own.position)
        .collect();
    i32::try_from(numbers.pick(&wanted)?).ok()
}

/// A statement of a sort, half of the time one that leaves kept constraints
/// reading.
fn statement(composer: &mut Composer, sort: i32) -> Vec<i32> {
    if composer.numbers.chance(50) {
        return composer.asked(sort);
    }
    match sort {
        1 => [vec![1], asked::entry(composer)].concat(),
        2 => same_shape(composer).unwrap_or_else(|| composer.asked(sort)),
        _ => holding(composer, sort).unwrap_or_else(|| composer.asked(sort)),
    }
}

/// An always or once with a part that holds: a number is what it is.
fn holding(composer: &mut Composer, sort: i32) -> Option<Vec<i32>> {
    let known = composer.known_of(Kind::Integer)?;
    let start = [sort, 1, composer.numbers.between(1, 3), 25, 6, 24];
    let (_, number) = known.value.words();
    Some([&start[..], &known.words, &[23, number]].concat())
}

/// A new record for a variable, with fields of the kinds that its own has.
fn same_shape(composer: &mut Composer) -> Option<Vec<i32>> {
    let known = composer.known(|value| value.kind() == Kind::Reference)?;
    let (&[variable, 0], Value::Reference(record)) = (known.words.as_slice(), known.value) else {
        return None;
    };
    let tables = composer.tables;
    let labels = tables.labels(record);
    let mut words = vec![2, variable, i32::try_from(labels.len()).ok()?];
    for label in labels {
        words.push(i32::try_from(*label).ok()?);
        let value = tables.cell(tables.field(record, *label)?)?;
        composer.leaf(&mut words, value.kind());
    }
    Some(words)
}
