//! What askings are like, counted over many of them.

use super::slices::GIVEN;
use super::starts::Check;
use super::words::Spot;
use crate::asking::Answer;
use crate::batch::Asking;
use crate::outcome::Outcome;
use crate::program::{Program, DEEPEST_BLOCK};
use crate::proposal::Proposal;
use crate::tables::VALUE_POSITIONS;
use std::collections::BTreeMap;

/// One thing that an asking is; it is of several classes.
#[derive(Clone, Copy, Debug, PartialEq, Eq, PartialOrd, Ord)]
pub enum Class {
    Outcome(i32),
    Solver(i32),
    /// An accepted proposal of a solver changes something.
    Changes(i32),
    /// The statement's sort and its block's depth.
    Statement(i32, usize),
    /// What each slice gives by itself; 6 is an empty one.
    Pair(i32, i32),
    /// A solver's slice has words left over, and gives this without them.
    Left(usize, i32),
    LeftInBoth,
    /// Refused by the statement itself, the first slice empty or not.
    Own(i32, First),
    /// An always-statement that is kept, and the solver.
    Again(i32),
    /// Whether constraints are kept at the start, and whether identities are.
    Kept(bool, bool),
    /// What fails before the statement, and what else would.
    Before(Check, Option<Check>),
    Word(Spot),
}

#[derive(Clone, Copy, Debug, PartialEq, Eq, PartialOrd, Ord)]
pub enum First {
    Empty,
    Filled,
}

/// The refusals of a statement 1 to 4 by itself.
pub const OWN: [Outcome; 8] = [
    Outcome::NoCell,
    Outcome::WrongKind,
    Outcome::OutOfRange,
    Outcome::HeapFull,
    Outcome::IdentityClash,
    Outcome::PlainIdentity,
    Outcome::NoRoom,
    Outcome::LostConstraint,
];

impl Class {
    /// All that there are but for some of `Before`.
    pub fn all() -> Vec<Class> {
        let given = GIVEN.map(Outcome::number);
        let pairs = given.map(|one| given.map(|other| (one, other))).concat();
        let possible = pairs
            .iter()
            .filter(|pair| !matches!(pair, (18, 19) | (19, 18)));
        let own = OWN.map(Outcome::number);
        let depths = 1..=DEEPEST_BLOCK;
        let statements = depths.flat_map(|depth| (1..=4).map(move |sort| (sort, depth)));
        let left = [0, 17, 18, 19].map(|n| [Class::Left(1, n), Class::Left(2, n)]);
        let kept = [false, true].map(|v| [false, true].map(|i| Class::Kept(v, i)));
        let mut all = vec![Class::LeftInBoth];
        all.extend(Outcome::OF_ASKINGS.map(|own| Class::Outcome(own.number())));
        all.extend((0..=2).map(Class::Solver));
        all.extend((1..=2).map(Class::Changes));
        all.extend(statements.map(|(sort, depth)| Class::Statement(sort, depth)));
        all.extend(possible.map(|(one, other)| Class::Pair(*one, *other)));
        all.extend(left.concat());
        all.extend(own.map(|n| Class::Own(n, First::Empty)));
        all.extend(own.map(|n| Class::Own(n, First::Filled)));
        all.extend((0..=2).map(Class::Again));
        all.extend(kept.concat());
        all.extend(Check::PAIRS.map(|(check, other)| Class::Before(check, other)));
        all.extend(Spot::ALL.map(Class::Word));
        all
    }

    /// Those that an asking is of.
    pub fn of(asking: &Asking) -> Vec<Class> {
        let answer = asking.answer().answer;
        let mut classes = vec![Class::Outcome(answer.outcome), Class::Solver(answer.solver)];
        if answer.words > 1 {
            classes.push(Class::Changes(answer.solver));
        }
        let failing = Check::ALL.into_iter().filter(|check| check.fails(asking));
        let failing: Vec<Check> = failing.collect();
        classes.extend(match failing.as_slice() {
            [] => reached(asking, &answer),
            [check] => vec![Class::Before(*check, None)],
            [check, others @ ..] => {
                let others = others.iter();
                others.map(|o| Class::Before(*check, Some(*o))).collect()
            }
        });
        if failing.first() == Some(&Check::Word) {
            let program = Program::decode(&asking.program).ok();
            let spot = program.and_then(|program| Spot::of(&program, asking.word));
            classes.extend(spot.map(Class::Word));
        }
        classes
    }
}

/// The classes of an asking that comes to its statement.
fn reached(asking: &Asking, answer: &Answer) -> Vec<Class> {
    let (values, identities) = (asking.constraints.first(), asking.constraints.get(1));
    let mut classes = vec![Class::Kept(values > Some(&0), identities > Some(&0))];
    classes.extend(statement(asking));
    if OWN.map(Outcome::number).contains(&answer.outcome) {
        let first = match asking.first.is_empty() {
            true => First::Empty,
            false => First::Filled,
        };
        classes.push(Class::Own(answer.outcome, first));
        return classes;
    }
    let mut kept = asking.constraints.iter().skip(2).take(VALUE_POSITIONS);
    if kept.any(|position| *position == asking.word) {
        classes.push(Class::Again(answer.solver));
    }
    classes.extend(slices(asking));
    classes
}

fn slices(asking: &Asking) -> Vec<Class> {
    let slices = [&asking.first, &asking.second];
    let [first, second] = slices.map(|words| alone(asking, words));
    let left = slices.map(|words| without_left(asking, words));
    let told = left.iter().zip(1..);
    let told = told.filter_map(|(left, solver)| Some(Class::Left(solver, (*left)?)));
    let both = (!left.contains(&None)).then_some(Class::LeftInBoth);
    told.chain(both)
        .chain([Class::Pair(first, second)])
        .collect()
}

fn statement(asking: &Asking) -> Option<Class> {
    let word = usize::try_from(asking.word).ok()?;
    let sort = asking.program.get(word)?;
    let program = Program::decode(&asking.program).ok()?;
    let statements = program.statements();
    let (depth, _) = statements.iter().find(|(_, own)| own.position == word)?;
    Some(Class::Statement(*sort, *depth))
}

/// What a slice gives by itself.
fn alone(asking: &Asking, words: &[i32]) -> i32 {
    let mut alone = asking.clone();
    alone.first = words.to_vec();
    alone.second.clear();
    alone.answer().answer.outcome
}

/// What a slice with words left over gives without them.
fn without_left(asking: &Asking, words: &[i32]) -> Option<i32> {
    let length = Proposal::read(words).ok()?.length();
    let left = words.len() > length;
    left.then(|| alone(asking, words.get(..length).unwrap_or(words)))
}

/// How many of the first askings of a seed are of each class.
pub fn histogram(seed: u64, count: u64) -> BTreeMap<Class, u64> {
    let all = Class::all().into_iter().map(|class| (class, 0));
    let mut counts: BTreeMap<Class, u64> = all.collect();
    for class in (0..count).flat_map(|index| Class::of(&super::asking(seed, index))) {
        *counts.entry(class).or_default() += 1;
    }
    counts
}
