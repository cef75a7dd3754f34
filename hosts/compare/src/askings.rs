//! Two solvers on one statement: `cordbasin_ask` and the independent program on
//! the same words, and the proved call on each slice by itself.

use crate::cases::{self, Case, Noted, Tables};
use crate::comparison::Stop;
use crate::dealt;
use crate::proved::{Proved, Told};
use cordbasin::Asked;
use reference::asking::{Answer, TURNED_DOWN};
use reference::batch::{self, Asking};
use reference::generator;
use reference::outcome::Outcome;
use std::fmt;
use std::io;

/// From so many askings on, each outcome, each solver and each pair of refusals
/// must come up at least once in so many.
const LONG_RUN: u64 = 100_000;
const ONCE_IN: u64 = 500;

/// Numbers by which a proposal is turned down.
const NUMBERS: usize = TURNED_DOWN.len();

pub type Tally = dealt::Tally<Asking>;
pub type Finish = batch::Finish<Answer>;

/// What is counted of the askings beside their outcomes.
#[derive(Debug, Default)]
pub struct Counts {
    /// How often no slice, the first and the second were accepted.
    pub solvers: [u64; 3],
    /// How often both were turned down, by the first's number and the second's
    /// in the order of `TURNED_DOWN`. An empty slice is 6.
    pub pairs: [[u64; NUMBERS]; NUMBERS],
}

pub fn compare(seed: u64, count: u64) -> Result<Tally, Stop> {
    let tally: Tally = dealt::compare(seed, count)?;
    if count >= LONG_RUN && !is_met(&tally, count / ONCE_IN) {
        return Err(Stop::Rare(format!(
            "{tally}\ntoo few of an outcome, a solver or a pair"
        )));
    }
    Ok(tally)
}

/// Whether each outcome, each solver and each pair that there can be came up so
/// often.
pub fn is_met(tally: &Tally, least: u64) -> bool {
    let Counts { solvers, pairs } = &tally.noted;
    let pairs = pairs.iter().flatten().zip(all_pairs());
    let pairs = pairs.filter(|(_, pair)| can_be(*pair));
    let counts = tally.outcomes.iter().chain(solvers);
    let mut counts = counts.chain(pairs.map(|(count, _)| count));
    counts.all(|count| *count >= least)
}

fn all_pairs() -> impl Iterator<Item = (Outcome, Outcome)> {
    let second = |first| TURNED_DOWN.map(|second| (first, second));
    TURNED_DOWN.into_iter().flat_map(second)
}

/// Which of 18 and 19 there can be is the state's: 18 where every part is
/// satisfied, 19 elsewhere.
fn can_be((first, second): (Outcome, Outcome)) -> bool {
    let both = [first, second];
    !(both.contains(&Outcome::NeedlessChange) && both.contains(&Outcome::RequiredUnmet))
}

/// What the C call gives, on copies of the asking's tables.
pub fn call(asking: &Asking) -> Finish {
    cases::call(asking)
}

impl Case for Asking {
    const NAME: &'static str = "asking";
    const OUTCOMES: &'static [Outcome] = &Outcome::OF_ASKINGS;
    type Answer = Answer;
    type Noted = Counts;

    fn generated(seed: u64, index: u64) -> Asking {
        generator::asking(seed, index)
    }

    fn lent(&self) -> [&Vec<i32>; 3] {
        [&self.environment, &self.heap, &self.constraints]
    }

    fn line(&self) -> String {
        Asking::line(self)
    }

    fn answer_line(&self, finish: &Finish) -> String {
        finish.line(self)
    }

    fn outcome(answer: &Answer) -> i32 {
        answer.outcome
    }

    fn independent(&self) -> Finish {
        self.answer()
    }

    fn proved(&self, [environment, heap, constraints]: &mut Tables) -> Answer {
        let told = cordbasin::ask_words(
            &self.program,
            environment,
            heap,
            constraints,
            self.word,
            &self.first,
            &self.second,
        );
        answer(self, &told)
    }

    fn emulated(&self, tables: &mut Tables, proved: &mut Proved) -> io::Result<Option<Answer>> {
        let told = proved.ask(&self.program, tables, self.word, &self.first, &self.second)?;
        Ok(told.map(answer_of))
    }
}

/// The call's answer as the independent program has it. Words that are not the
/// start of their solver's slice become a number that differs from every
/// answer's.
fn answer(asking: &Asking, told: &Asked) -> Answer {
    let (solver, words) = told
        .accepted
        .map_or((0, &[][..]), |(solver, words)| (solver.number(), words));
    let slice = match solver {
        2 => &asking.second,
        _ => &asking.first,
    };
    let words = match slice.starts_with(words) {
        true => words.len(),
        false => usize::MAX,
    };
    Answer {
        outcome: told.outcome.number(),
        place: told.place,
        solver,
        words,
    }
}

fn answer_of(([outcome, place, solver], words): Told<3>) -> Answer {
    Answer {
        outcome,
        place,
        solver,
        words,
    }
}

impl Noted<Asking> for Counts {
    fn note(&mut self, asking: &Asking, finish: &Finish) -> Result<(), String> {
        let [first, second] = [&asking.first, &asking.second].map(|slice| alone(asking, slice));
        let pair = [&first, &second].map(|finish| turned_down(finish.answer.outcome));
        let both = together(asking, first, second);
        cases::same(asking, finish, "proved, each slice by itself", &both)?;
        if let [Some(first), Some(second)] = pair {
            self.pairs[first][second] += 1;
        }
        let solver = usize::try_from(finish.answer.solver).ok();
        let count = solver.and_then(|solver| self.solvers.get_mut(solver));
        *count.ok_or("there is no such solver")? += 1;
        Ok(())
    }

    fn add(&mut self, other: &Counts) {
        let counts = self.solvers.iter_mut().chain(self.pairs.as_flattened_mut());
        let more = other.solvers.iter().chain(other.pairs.as_flattened());
        for (count, more) in counts.zip(more) {
            *count += more;
        }
    }
}

/// What the proved call gives for a slice with no second one.
fn alone(asking: &Asking, slice: &[i32]) -> Finish {
    call(&Asking {
        first: slice.to_vec(),
        second: Vec::new(),
        ..asking.clone()
    })
}

/// Where a number stands in `TURNED_DOWN`.
fn turned_down(outcome: i32) -> Option<usize> {
    TURNED_DOWN.iter().position(|own| own.number() == outcome)
}

/// What two solvers give of whom each was asked alone.
pub fn together(asking: &Asking, first: Finish, mut second: Finish) -> Finish {
    if turned_down(first.answer.outcome).is_none() || asking.second.is_empty() {
        return first;
    }
    // By itself it was the first.
    second.answer.solver *= 2;
    second
}

impl fmt::Display for Counts {
    fn fmt(&self, out: &mut fmt::Formatter<'_>) -> fmt::Result {
        let [none, first, second] = self.solvers;
        write!(
            out,
            "accepted none: {none}, first: {first}, second: {second}"
        )?;
        write!(out, "; both in vain")?;
        for (count, pair) in self.pairs.iter().flatten().zip(all_pairs()) {
            if can_be(pair) || *count > 0 {
                write!(out, " {}+{}: {count}", pair.0.number(), pair.1.number())?;
            }
        }
        Ok(())
    }
}
