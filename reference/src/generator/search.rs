//! Proposals found while a program runs: none if possible, else repairs.

use super::numbers::Numbers;
use super::solve::Repair;
use crate::constraints::{all_parts_hold, part_holds, required_parts_hold};
use crate::outcome::Outcome;
use crate::program::{Part, Priority};
use crate::proposal::{Proposal, Source, Wanted, LOCATIONS};
use crate::tables::{Location, Tables, Value};

/// A proposal that is to be turned down on purpose.
#[derive(Clone, Copy, Debug, PartialEq, Eq)]
pub enum Mistake {
    Unfit,
    Entry,
    Needless,
    Unmet,
}

impl Mistake {
    /// By which a proposal is turned down with an outcome.
    pub fn of(outcome: Outcome) -> Option<Mistake> {
        match outcome {
            Outcome::UnfitProposal => Some(Mistake::Unfit),
            Outcome::UnfitEntry => Some(Mistake::Entry),
            Outcome::NeedlessChange => Some(Mistake::Needless),
            Outcome::RequiredUnmet => Some(Mistake::Unmet),
            _ => None,
        }
    }
}

/// Writes each proposal at the moment a statement asks for it.
#[derive(Clone, Debug, Default)]
pub struct Searcher {
    pub numbers: Numbers,
    pub words: Vec<i32>,
    pub read: usize,
    /// Where accepted proposals begin.
    pub starts: Vec<usize>,
    pub mistake: Option<Mistake>,
}

impl Source for Searcher {
    fn proposal(&mut self, wanted: &Wanted) -> Result<Proposal, Outcome> {
        if self.read >= self.words.len() {
            let proposal = match self.mistake {
                Some(mistake) => self.mistaken(mistake, wanted),
                None => None,
            };
            let proposal = proposal.unwrap_or_else(|| self.search(wanted));
            self.words.extend(proposal);
        }
        Proposal::read(self.words.get(self.read..).unwrap_or(&[]))
    }

    fn accept(&mut self, words: usize) {
        self.starts.push(self.read);
        self.read += words;
    }
}

fn required_hold(tables: &Tables, wanted: &Wanted) -> bool {
    let mut constraints = wanted.constraints.iter();
    constraints.all(|constraint| required_parts_hold(tables, constraint))
}

fn satisfied(wanted: &Wanted) -> bool {
    let mut constraints = wanted.constraints.iter();
    constraints.all(|constraint| all_parts_hold(wanted.tables, constraint))
}

fn failing_part<'a>(
    tables: &Tables,
    wanted: &Wanted<'a>,
    of: impl Fn(Priority) -> bool,
) -> Option<&'a Part> {
    let constraints = wanted.constraints.iter();
    let mut parts = constraints.flat_map(|constraint| &constraint.parts);
    parts.find(|part| of(part.priority) && !part_holds(tables, part))
}

/// The proposal that leads from one state to another of the same shape.
fn difference(before: &Tables, after: &Tables) -> Vec<i32> {
    let mut words = vec![0];
    let pairs = before.cells().zip(after.cells());
    for ((location, old), (_, new)) in pairs {
        if old != new {
            words.extend(i32::try_from(location));
            words.push(new.words().1);
        }
    }
    let entries = i32::try_from(words.len() / 2).unwrap_or(0);
    words.splice(0..1, [entries]);
    words
}

/// A cell that a proposal may change.
fn is_free(wanted: &Wanted, location: Location, value: Value) -> bool {
    let plain = !value.is_reference_or_nil();
    plain && wanted.target != Some(location)
}

impl Searcher {
    pub fn new(numbers: Numbers) -> Searcher {
        Searcher {
            numbers,
            ..Searcher::default()
        }
    }

    /// Drops what was written but not accepted.
    pub fn forget_refused(&mut self) {
        self.words.truncate(self.read);
    }

    fn search(&mut self, wanted: &Wanted) -> Vec<i32> {
        if satisfied(wanted) {
            return vec![0];
        }
        let fine = required_hold(wanted.tables, wanted);
        if fine && self.numbers.chance(50) {
            return vec![0];
        }
        for _ in 0..6 {
            if let Some(tables) = self.repaired(wanted, fine) {
                return difference(wanted.tables, &tables);
            }
        }
        vec![0]
    }

    /// A state that meets all required parts; soft parts are tried first
    /// where the required ones hold already.
    fn repaired(&mut self, wanted: &Wanted, soften: bool) -> Option<Tables> {
        let mut repair = Repair {
            tables: wanted.tables.clone(),
            target: wanted.target,
            numbers: &mut self.numbers,
        };
        if soften {
            let soft = |priority| priority != Priority::Required;
            let part = failing_part(&repair.tables, wanted, soft)?;
            repair.meet(&part.expression, true);
        }
        for _ in 0..5 {
            let required = |priority| priority == Priority::Required;
            match failing_part(&repair.tables, wanted, required) {
                None => return Some(repair.tables),
                Some(part) => {
                    if !repair.meet(&part.expression, true) {
                        return None;
                    }
                }
            }
        }
        required_hold(&repair.tables, wanted).then_some(repair.tables)
    }

    fn mistaken(&mut self, mistake: Mistake, wanted: &Wanted) -> Option<Vec<i32>> {
        match mistake {
            Mistake::Unfit => Some(self.unfit(wanted)),
            Mistake::Entry => self.unfit_entry(wanted),
            Mistake::Needless if satisfied(wanted) => self.free_change(wanted),
            Mistake::Unmet if !satisfied(wanted) => self.unmet(wanted),
            _ => None,
        }
    }

    fn unfit(&mut self, wanted: &Wanted) -> Vec<i32> {
        let good = self.free_change(wanted).unwrap_or(vec![1, 0, 5]);
        let location = good.get(1).copied().unwrap_or(0);
        let payload = good.get(2).copied().unwrap_or(0);
        match self.numbers.below(8) {
            0 => vec![1],
            1 => vec![1, location],
            2 => vec![-1, location, payload],
            3 => vec![577 + self.numbers.between(0, 2), location, payload],
            4 => vec![2, location, payload, location, payload],
            5 => vec![2, location, payload, location - 1, payload],
            6 => vec![1, 576, payload],
            _ => vec![2, location, payload, self.numbers.extreme().max(576), 0],
        }
    }

    fn unfit_entry(&mut self, wanted: &Wanted) -> Option<Vec<i32>> {
        let most = i32::try_from(LOCATIONS).ok()? - 1;
        let location = match (self.numbers.below(4), wanted.target) {
            (0, Some(target)) => i32::try_from(target).ok()?,
            (1, _) => self.numbers.between(0, most),
            _ => i32::try_from(self.any_cell(wanted)?.0).ok()?,
        };
        let cell = wanted.tables.cell(usize::try_from(location).ok()?);
        let is_target = wanted.target.and_then(|t| i32::try_from(t).ok()) == Some(location);
        let payload = match cell {
            Some(Value::Integer(number)) if is_target => number.wrapping_add(1),
            Some(Value::Boolean(truth)) if is_target => i32::from(!truth),
            Some(Value::Integer(number)) if self.numbers.chance(80) => number,
            Some(Value::Boolean(truth)) if self.numbers.chance(50) => i32::from(truth),
            Some(Value::Boolean(_)) => self.numbers.one_of(&[2, -1, 3, i32::MIN]),
            _ => self.numbers.between(0, 9),
        };
        Some(vec![1, location, payload])
    }

    fn any_cell(&mut self, wanted: &Wanted) -> Option<(Location, Value)> {
        let count = wanted.tables.cells().count();
        wanted.tables.cells().nth(self.numbers.below(count))
    }

    /// One entry that is fit in itself.
    fn free_change(&mut self, wanted: &Wanted) -> Option<Vec<i32>> {
        for _ in 0..8 {
            let (location, value) = self.any_cell(wanted)?;
            if is_free(wanted, location, value) {
                let payload = match value {
                    Value::Boolean(truth) => i32::from(!truth),
                    Value::Integer(number) => number.wrapping_add(self.numbers.between(1, 5)),
                    _ => 0,
                };
                return Some(vec![1, i32::try_from(location).ok()?, payload]);
            }
        }
        None
    }

    /// None, or a repair gone wrong by one changed payload.
    fn unmet(&mut self, wanted: &Wanted) -> Option<Vec<i32>> {
        if !required_hold(wanted.tables, wanted) && self.numbers.chance(40) {
            return Some(vec![0]);
        }
        for _ in 0..6 {
            let proposal = self.free_change(wanted)?;
            let &[_, location, payload] = proposal.as_slice() else {
                return None;
            };
            let mut tables = wanted.tables.clone();
            let location = usize::try_from(location).ok()?;
            let changed = match tables.cell(location)? {
                Value::Integer(_) => Value::Integer(payload),
                _ => Value::Boolean(payload == 1),
            };
            tables.set(location, changed);
            if !required_hold(&tables, wanted) {
                return Some(proposal);
            }
        }
        None
    }
}
