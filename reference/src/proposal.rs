//! Proposals: where they come from, how they read and what they may change.

use crate::outcome::Outcome;
use crate::program::Constraint;
use crate::tables::{Location, Tables, Value, FIELDS, RECORDS, VARIABLES};

pub const LOCATIONS: usize = VARIABLES + RECORDS * FIELDS;

/// What a statement has settled when it asks for a proposal: the state after
/// its identity phase, the constraints to be met and its target cell.
pub struct Wanted<'a> {
    pub tables: &'a Tables,
    pub constraints: &'a [&'a Constraint],
    pub target: Option<Location>,
}

/// Gives the next proposal, or 6 or 16.
pub trait Source {
    fn proposal(&mut self, wanted: &Wanted) -> Result<Proposal, Outcome>;
    fn accept(&mut self, words: usize);
}

/// Proposals that were all written down beforehand.
pub struct Written<'a> {
    pub words: &'a [i32],
}

impl Source for Written<'_> {
    fn proposal(&mut self, _: &Wanted) -> Result<Proposal, Outcome> {
        Proposal::read(self.words)
    }

    fn accept(&mut self, words: usize) {
        self.words = self.words.get(words..).unwrap_or(&[]);
    }
}

/// A slice that is one whole proposal: words left over make it 16.
pub struct Whole<'a> {
    pub words: &'a [i32],
}

impl Source for Whole<'_> {
    fn proposal(&mut self, _: &Wanted) -> Result<Proposal, Outcome> {
        let proposal = Proposal::read(self.words)?;
        match proposal.length() == self.words.len() {
            true => Ok(proposal),
            false => Err(Outcome::UnfitProposal),
        }
    }

    fn accept(&mut self, _: usize) {}
}

#[derive(Clone, Debug, Default, PartialEq, Eq)]
pub struct Proposal {
    pub entries: Vec<(Location, i32)>,
}

impl Proposal {
    /// Reads one proposal from the front of the words: 6 and 16.
    pub fn read(words: &[i32]) -> Result<Proposal, Outcome> {
        let (&count, rest) = words.split_first().ok_or(Outcome::NoProposal)?;
        let unfit = Outcome::UnfitProposal;
        let count = usize::try_from(count).map_err(|_| unfit)?;
        if count > LOCATIONS {
            return Err(unfit);
        }
        let pairs = rest.get(..2 * count).ok_or(unfit)?;
        let mut entries: Vec<(Location, i32)> = Vec::with_capacity(count);
        for pair in pairs.chunks(2) {
            let &[location, payload] = pair else {
                return Err(unfit);
            };
            let location = usize::try_from(location).map_err(|_| unfit)?;
            let rises = entries.last().is_none_or(|(last, _)| *last < location);
            if location >= LOCATIONS || !rises {
                return Err(unfit);
            }
            entries.push((location, payload));
        }
        Ok(Proposal { entries })
    }

    pub fn length(&self) -> usize {
        1 + 2 * self.entries.len()
    }

    /// The state with all entries carried out, or 17.
    pub fn carry_out(&self, tables: &mut Tables, target: Option<Location>) -> Result<(), Outcome> {
        for (location, payload) in &self.entries {
            let changed = match tables.cell(*location) {
                _ if target == Some(*location) => None,
                Some(Value::Integer(old)) if old != *payload => Some(Value::Integer(*payload)),
                Some(Value::Boolean(true)) if *payload == 0 => Some(Value::Boolean(false)),
                Some(Value::Boolean(false)) if *payload == 1 => Some(Value::Boolean(true)),
                _ => None,
            };
            tables.set(*location, changed.ok_or(Outcome::UnfitEntry)?);
        }
        Ok(())
    }
}
