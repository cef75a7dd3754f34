//! Whole sheets: `cordbasin_run` and the independent program on the same words.

use crate::cases::{self, Case, Noted, Tables};
use crate::comparison::Stop;
use crate::dealt;
use crate::proved::Proved;
use reference::batch::{Finish, Sheet};
use reference::counts::Counts;
use reference::generator;
use reference::outcome::Outcome;
use reference::run::Answer;
use std::io;

/// From so many sheets on, each of 7, 8, 9 and 15 must have a place inside a
/// statement so often, one sheet in so many must compare unlike kinds, in all
/// and for each of 8, 15 and 4, and one in so many must move a large class,
/// have one taken back, and be refused by each of 12 and 13.
const LONG_RUN: u64 = 1_000_000;
const LEAST_PLACES: u64 = 10_000;
const UNLIKE_ONCE_IN: u64 = 100;
const EACH_UNLIKE_ONCE_IN: u64 = 1000;
const MOVED_ONCE_IN: u64 = 40;
const TAKEN_BACK_ONCE_IN: u64 = 1000;
const EACH_REFUSED_ONCE_IN: u64 = 400;

pub type Tally = dealt::Tally<Sheet>;

pub fn compare(seed: u64, count: u64) -> Result<Tally, Stop> {
    let tally: Tally = dealt::compare(seed, count)?;
    match rare(&tally.noted, count) {
        Some(rare) => Err(Stop::Rare(format!("{tally}\ntoo few {rare}"))),
        None => Ok(tally),
    }
}

/// What came up too seldom in a long run.
pub fn rare(counts: &Counts, sheets: u64) -> Option<&'static str> {
    let once_in = |once: u64| sheets.div_ceil(once);
    let [all, each] = [UNLIKE_ONCE_IN, EACH_UNLIKE_ONCE_IN].map(once_in);
    let [moved, taken_back, refused] =
        [MOVED_ONCE_IN, TAKEN_BACK_ONCE_IN, EACH_REFUSED_ONCE_IN].map(once_in);
    if sheets < LONG_RUN {
        None
    } else if !counts.places.are_met(LEAST_PLACES) {
        Some("places inside")
    } else if !counts.unlike.are_met(all, each) {
        Some("comparisons of unlike kinds")
    } else if !counts.classes.are_met(moved, taken_back, refused) {
        Some("large classes")
    } else {
        None
    }
}

/// What the C call gives, on copies of the sheet's tables.
pub fn call(sheet: &Sheet) -> Finish {
    cases::call(sheet)
}

impl Case for Sheet {
    const NAME: &'static str = "sheet";
    const OUTCOMES: &'static [Outcome] = &Outcome::ALL;
    type Answer = Answer;
    type Noted = Counts;

    fn generated(seed: u64, index: u64) -> Sheet {
        generator::sheet(seed, index)
    }

    fn lent(&self) -> [&Vec<i32>; 3] {
        [&self.environment, &self.heap, &self.constraints]
    }

    fn line(&self) -> String {
        Sheet::line(self)
    }

    fn answer_line(&self, finish: &Finish) -> String {
        finish.line(self)
    }

    fn outcome(answer: &Answer) -> i32 {
        answer.outcome
    }

    fn independent(&self) -> Finish {
        self.answer()
    }

    fn proved(&self, [environment, heap, constraints]: &mut Tables) -> Answer {
        let told = cordbasin::run_words(
            &self.program,
            environment,
            heap,
            constraints,
            &self.proposals,
            self.budget,
        );
        cases::answer(
            told.outcome,
            told.place,
            told.steps,
            told.accepted,
            told.unread,
        )
    }

    fn emulated(&self, tables: &mut Tables, proved: &mut Proved) -> io::Result<Option<Answer>> {
        let told = proved.run(&self.program, tables, &self.proposals, self.budget)?;
        Ok(told.map(cases::answer_of))
    }
}

impl Noted<Sheet> for Counts {
    fn note(&mut self, sheet: &Sheet, finish: &Finish) -> Result<(), String> {
        self.count(sheet, finish);
        Ok(())
    }

    fn add(&mut self, other: &Counts) {
        Counts::add(self, other);
    }
}
