//! One case, a sheet, a list or an asking: the C call and the independent
//! program on the same words. Where the call is not x86-64 code, that code
//! answers it too.

use crate::proved::{Proved, Told};
use reference::batch::Finish;
use reference::outcome::Outcome;
use reference::run::Answer;
use std::fmt::{Debug, Display};
use std::io;

/// Environment, heap and constraints.
pub type Tables = [Vec<i32>; 3];

/// All that one call takes.
pub trait Case: Debug + Sized {
    const NAME: &'static str;
    /// Those that it may end with.
    const OUTCOMES: &'static [Outcome];
    /// What a call tells beside the tables.
    type Answer: PartialEq;
    type Noted: Noted<Self>;

    fn generated(seed: u64, index: u64) -> Self;

    /// The tables that are lent.
    fn lent(&self) -> [&Vec<i32>; 3];

    fn line(&self) -> String;

    /// The line of an answer to this case.
    fn answer_line(&self, finish: &Finish<Self::Answer>) -> String;

    fn outcome(answer: &Self::Answer) -> i32;

    fn independent(&self) -> Finish<Self::Answer>;

    /// What the C call answers.
    fn proved(&self, tables: &mut Tables) -> Self::Answer;

    /// What x86-64 code answers, where the call is other code.
    fn emulated(
        &self,
        tables: &mut Tables,
        proved: &mut Proved,
    ) -> io::Result<Option<Self::Answer>>;
}

/// What is counted of many cases beside their outcomes.
pub trait Noted<C: Case>: Debug + Default + Display + Send {
    /// Counts a case to which all gave this answer. The error is a difference
    /// that shows where the case is put in another way.
    fn note(&mut self, case: &C, finish: &Finish<C::Answer>) -> Result<(), String>;

    fn add(&mut self, other: &Self);
}

/// An answer that all gave.
pub struct Agreed<C: Case> {
    /// Which of the case's outcomes.
    pub outcome: usize,
    pub finish: Finish<C::Answer>,
    /// Whether x86-64 code answered under the emulator too.
    pub emulated: bool,
}

/// What the C call gives, on copies of the case's tables.
pub fn call<C: Case>(case: &C) -> Finish<C::Answer> {
    let mut tables = copies(case);
    let answer = case.proved(&mut tables);
    finish(answer, tables)
}

/// The answer of a run or a list as the independent program has it.
pub fn answer(
    outcome: cordbasin::Outcome,
    place: usize,
    steps: u32,
    accepted: u32,
    unread: &[i32],
) -> Answer {
    Answer {
        outcome: outcome.number(),
        place,
        steps,
        accepted,
        unread: unread.len(),
    }
}

/// Asks all about a case. The inner error is a difference.
pub fn compare<C: Case>(case: &C, proved: &mut Proved) -> io::Result<Result<Agreed<C>, String>> {
    let emulated = emulated(case, proved)?;
    let independent = case.independent();
    Ok(compare_finishes(case, emulated, independent))
}

fn compare_finishes<C: Case>(
    case: &C,
    emulated: Option<Finish<C::Answer>>,
    independent: Finish<C::Answer>,
) -> Result<Agreed<C>, String> {
    if let Some(finish) = &emulated {
        same(case, finish, "independent", &independent)?;
    }
    same(case, &call(case), "independent", &independent)?;
    let mut outcomes = C::OUTCOMES.iter().map(|outcome| outcome.number());
    match outcomes.position(|number| number == C::outcome(&independent.answer)) {
        Some(outcome) => Ok(Agreed {
            outcome,
            finish: independent,
            emulated: emulated.is_some(),
        }),
        None => Err(format!(
            "{}\nno outcome of a {}: {}",
            case.line(),
            C::NAME,
            case.answer_line(&independent)
        )),
    }
}

/// The text of a difference tells the case and both answers.
pub fn same<C: Case>(
    case: &C,
    proved: &Finish<C::Answer>,
    who: &str,
    other: &Finish<C::Answer>,
) -> Result<(), String> {
    if proved == other {
        return Ok(());
    }
    let [proved, other] = [proved, other].map(|finish| case.answer_line(finish));
    Err(format!("{}\nproved: {proved}\n{who}: {other}", case.line()))
}

fn emulated<C: Case>(case: &C, proved: &mut Proved) -> io::Result<Option<Finish<C::Answer>>> {
    let mut tables = copies(case);
    let answer = case.emulated(&mut tables, proved)?;
    Ok(answer.map(|answer| finish(answer, tables)))
}

/// The answer of a run or a list. A number that no call gives becomes one that
/// differs from every answer.
pub fn answer_of(([outcome, place, steps, accepted], unread): Told) -> Answer {
    Answer {
        outcome,
        place: usize::try_from(place).unwrap_or(usize::MAX),
        steps: u32::try_from(steps).unwrap_or(u32::MAX),
        accepted: u32::try_from(accepted).unwrap_or(u32::MAX),
        unread,
    }
}

fn copies<C: Case>(case: &C) -> Tables {
    case.lent().map(Vec::clone)
}

fn finish<A>(answer: A, [environment, heap, constraints]: Tables) -> Finish<A> {
    Finish {
        answer,
        environment,
        heap,
        constraints,
    }
}
