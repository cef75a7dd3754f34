//! Lists of entries: `cordbasin_assign` and the independent program on the same
//! words, and the proved run over a program of the same assignments.

use crate::cases::{self, Case, Noted, Tables};
use crate::comparison::Stop;
use crate::dealt;
use crate::proved::Proved;
use crate::sheets;
use reference::batch::{Finish, List, Sheet};
use reference::causes::Causes;
use reference::generator::{self, lists};
use reference::outcome::Outcome;
use reference::run::Answer;
use std::fmt;
use std::io;

/// From so many lists on, each outcome and each cause of 23 must come up at
/// least once in so many.
const LONG_RUN: u64 = 100_000;
const ONCE_IN: u64 = 500;

pub type Tally = dealt::Tally<List>;

/// What is counted of the lists beside their outcomes.
#[derive(Debug, Default)]
pub struct Counts {
    /// Why entries were refused by 23.
    pub causes: Causes,
    /// How many lists gave what a run over the same assignments does.
    pub programs: u64,
}

pub fn compare(seed: u64, count: u64) -> Result<Tally, Stop> {
    let tally: Tally = dealt::compare(seed, count)?;
    if count >= LONG_RUN && !is_met(&tally, count / ONCE_IN) {
        return Err(Stop::Rare(format!(
            "{tally}\ntoo few of an outcome or a cause"
        )));
    }
    Ok(tally)
}

/// Whether each outcome and each cause of 23 came up so often.
pub fn is_met(tally: &Tally, least: u64) -> bool {
    let mut counts = tally.outcomes.iter().chain(&tally.noted.causes.counts);
    counts.all(|count| *count >= least)
}

/// What the C call gives, on copies of the list's tables.
pub fn call(list: &List) -> Finish {
    cases::call(list)
}

impl Case for List {
    const NAME: &'static str = "list";
    const OUTCOMES: &'static [Outcome] = &Outcome::OF_LISTS;
    type Answer = Answer;
    type Noted = Counts;

    fn generated(seed: u64, index: u64) -> List {
        generator::list(seed, index)
    }

    fn lent(&self) -> [&Vec<i32>; 3] {
        self.sheet.lent()
    }

    fn line(&self) -> String {
        List::line(self)
    }

    fn answer_line(&self, finish: &Finish) -> String {
        finish.line(&self.sheet)
    }

    fn outcome(answer: &Answer) -> i32 {
        answer.outcome
    }

    fn independent(&self) -> Finish {
        self.answer()
    }

    fn proved(&self, [environment, heap, constraints]: &mut Tables) -> Answer {
        let sheet = &self.sheet;
        let told = cordbasin::assign_words(
            &sheet.program,
            environment,
            heap,
            constraints,
            &self.entries,
            &sheet.proposals,
            sheet.budget,
        );
        cases::answer(
            told.outcome,
            told.place,
            told.steps,
            told.accepted,
            told.unread,
        )
    }

    fn emulated(&self, tables: &mut Tables, proved: &mut Proved) -> io::Result<Option<Answer>> {
        let Sheet {
            program,
            proposals,
            budget,
            ..
        } = &self.sheet;
        let told = proved.assign(program, tables, &self.entries, proposals, *budget)?;
        Ok(told.map(cases::answer_of))
    }
}

impl Noted<List> for Counts {
    fn note(&mut self, list: &List, finish: &Finish) -> Result<(), String> {
        self.causes.count(list, finish);
        if let Some(run) = by_program(list, finish) {
            cases::same(list, finish, "proved, as a program", &run)?;
            self.programs += 1;
        }
        Ok(())
    }

    fn add(&mut self, other: &Counts) {
        let counts = self.causes.counts.iter_mut();
        for (count, more) in counts.zip(other.causes.counts) {
            *count += more;
        }
        self.programs += other.programs;
    }
}

/// What the proved run over the same assignments says of the list's answer, in
/// the list's steps and positions. Its place is a word, and is not told. None
/// where the list does not begin, or makes no program.
pub fn by_program(list: &List, finish: &Finish) -> Option<Finish> {
    if (1..=4).contains(&finish.answer.outcome) {
        return None;
    }
    let mut run = sheets::call(&generator::as_program(list)?);
    run.answer.place = finish.answer.place;
    // The test before the list's program is a step of its own.
    run.answer.steps = run.answer.steps.wrapping_sub(1);
    // A table that cannot be moved back differs from the list's as it is.
    if let Some(moved) = lists::moved(&run.constraints, -lists::MOVED) {
        run.constraints = moved;
    }
    Some(run)
}

impl fmt::Display for Counts {
    fn fmt(&self, out: &mut fmt::Formatter<'_>) -> fmt::Result {
        write!(out, "causes of 23: {}; ", self.causes)?;
        write!(out, "{} run as a program too", self.programs)
    }
}
