//! Words that begin no statement 1 to 4.

use super::placed::place;
use super::{any, own, ready};
use crate::batch::Asking;
use crate::generator::numbers::Numbers;
use crate::program::{Action, Block, Program, Statement};

/// Where such a word stands in a program that reads.
#[derive(Clone, Copy, Debug, PartialEq, Eq, PartialOrd, Ord)]
pub enum Spot {
    Least,
    Below,
    BlockCount,
    Skip,
    AlwaysIdentity,
    OnceIdentity,
    If,
    While,
    Inside,
    End,
    Past,
    Most,
}

impl Spot {
    pub const ALL: [Spot; 12] = [
        Spot::Least,
        Spot::Below,
        Spot::BlockCount,
        Spot::Skip,
        Spot::AlwaysIdentity,
        Spot::OnceIdentity,
        Spot::If,
        Spot::While,
        Spot::Inside,
        Spot::End,
        Spot::Past,
        Spot::Most,
    ];

    /// None for the first word of a statement 1 to 4.
    pub fn of(program: &Program, word: i32) -> Option<Spot> {
        match usize::try_from(word) {
            Err(_) if word == i32::MIN => Some(Spot::Least),
            Err(_) => Some(Spot::Below),
            Ok(_) if word == i32::MAX => Some(Spot::Most),
            Ok(at) if at == program.length => Some(Spot::End),
            Ok(at) => spots(program).get(at).copied().unwrap_or(Some(Spot::Past)),
        }
    }
}

/// Those of all words of a program, in order.
fn spots(program: &Program) -> Vec<Option<Spot>> {
    let mut spots = vec![Some(Spot::Inside); program.length];
    let statements = program.statements().into_iter();
    let firsts = statements.flat_map(|(_, statement)| first_words(statement));
    for (at, spot) in firsts.chain([(0, Some(Spot::BlockCount))]) {
        if let Some(own) = spots.get_mut(at) {
            *own = spot;
        }
    }
    spots
}

/// The first word of a statement and of each block that it holds.
fn first_words(statement: &Statement) -> Vec<(usize, Option<Spot>)> {
    let count = |block: &Block| (block.position, Some(Spot::BlockCount));
    let (spot, mut words) = match &statement.action {
        Action::Skip => (Some(Spot::Skip), vec![]),
        Action::AlwaysIdentity(_) => (Some(Spot::AlwaysIdentity), vec![]),
        Action::OnceIdentity(_) => (Some(Spot::OnceIdentity), vec![]),
        Action::If(_, yes, no) => (Some(Spot::If), vec![count(yes), count(no)]),
        Action::While(_, body) => (Some(Spot::While), vec![count(body)]),
        _ => (None, vec![]),
    };
    words.push((statement.position, spot));
    words
}

/// An asking with such a word, and slices that would be accepted elsewhere.
pub fn asking(numbers: &mut Numbers) -> Asking {
    let spot = numbers.pick(&Spot::ALL).unwrap_or(Spot::Least);
    let mut draft = ready(own(numbers));
    let name = draft.composer().variable();
    let statement = match spot {
        Spot::Skip => vec![0],
        Spot::AlwaysIdentity => vec![5, name, 0, name, 0],
        Spot::OnceIdentity => vec![6, name, 0, name, 0],
        Spot::If => vec![7, 22, 0, 1, 1, name, 0, 20],
        Spot::While => vec![8, 22, 1, 1, name, 0, 20],
        _ => return elsewhere(numbers, spot),
    };
    match place(draft, statement) {
        Some(question) => question.asking(vec![0], vec![0]),
        None => elsewhere(numbers, spot),
    }
}

fn elsewhere(numbers: &mut Numbers, spot: Spot) -> Asking {
    let question = any(numbers);
    let [first, second] = [(); 2].map(|()| question.written(numbers, None));
    let mut asking = question.asking(first, second);
    asking.word = word(numbers, &asking.program, spot);
    asking
}

/// A word of a sort. Inside a statement, often one that looks like the first of
/// a statement 1 to 4.
fn word(numbers: &mut Numbers, program: &[i32], spot: Spot) -> i32 {
    let length = i32::try_from(program.len()).unwrap_or(0);
    match spot {
        Spot::Least => return i32::MIN,
        Spot::Most => return i32::MAX,
        Spot::Below => return numbers.one_of(&[-1, -1, -2, -length, i32::MIN + 1]),
        Spot::End => return length,
        Spot::Past => {
            let near = length + 1 + numbers.between(0, 9);
            return numbers.one_of(&[near, near, 4096, 4097, 1 << 16, i32::MAX - 1]);
        }
        _ => {}
    }
    let spots = Program::decode(program).map_or(Vec::new(), |tree| spots(&tree));
    let words = (0..).zip(spots.iter().zip(program));
    let words = words.filter(|(_, (own, _))| **own == Some(spot));
    let likely = |(_, (_, word)): &(i32, (_, &i32))| (1..=4).contains(*word);
    let (likely, others): (Vec<_>, Vec<_>) = words.partition(likely);
    let words = match likely.is_empty() || !others.is_empty() && numbers.chance(40) {
        true => others,
        false => likely,
    };
    numbers.pick(&words).map_or(0, |(at, _)| at)
}

/// A word that begins no statement at all, whatever the program.
pub fn outside(numbers: &mut Numbers, program: &[i32]) -> i32 {
    let spots = [Spot::Least, Spot::Below, Spot::End, Spot::Past, Spot::Most];
    let spot = numbers.pick(&spots).unwrap_or(Spot::Least);
    word(numbers, program, spot)
}

/// One that begins no statement 1 to 4 of the program.
pub fn wrong(numbers: &mut Numbers, program: &[i32]) -> i32 {
    match numbers.chance(50) {
        true => outside(numbers, program),
        false => word(numbers, program, Spot::Inside),
    }
}
