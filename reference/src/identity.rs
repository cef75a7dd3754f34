//! Identities: whether they hold, and the identity phase of a statement.

use crate::evaluate;
use crate::outcome::{Fault, Outcome};
use crate::program::{Identity, Path};
use crate::tables::{Location, Tables, Value};
use std::collections::BTreeSet;

/// Both sides must hold references or nil, and the same one. Both paths are
/// followed before either side's kind is judged.
pub fn holds(tables: &Tables, identity: &Identity) -> Result<(), Fault> {
    let left = evaluate::read(tables, &identity.left)?;
    let right = evaluate::read(tables, &identity.right)?;
    for (value, side) in [(left, &identity.left), (right, &identity.right)] {
        if !value.is_reference_or_nil() {
            return Err(Outcome::WrongKind.at(side.position));
        }
    }
    if left != right {
        return Err(Outcome::NotIdentical.into());
    }
    Ok(())
}

/// Ties between cells and the cells frozen on the way to them.
struct Web {
    ties: Vec<(Location, Location)>,
    frozen: BTreeSet<Location>,
}

impl Web {
    fn of(tables: &Tables, kept: &[&Identity]) -> Result<Web, Fault> {
        let mut web = Web {
            ties: Vec::with_capacity(kept.len()),
            frozen: BTreeSet::new(),
        };
        for identity in kept {
            let left = web.side(tables, &identity.left)?;
            let right = web.side(tables, &identity.right)?;
            web.ties.push((left, right));
        }
        Ok(web)
    }

    fn side(&mut self, tables: &Tables, path: &Path) -> Result<Location, Fault> {
        self.frozen.extend(evaluate::prefix(tables, path)?);
        evaluate::locate(tables, path)
    }

    fn names(&self, cell: Location) -> bool {
        let mut ties = self.ties.iter();
        ties.any(|(left, right)| *left == cell || *right == cell)
    }

    /// The target and every cell tied to it, over any number of ties.
    fn class(&self, target: Location) -> BTreeSet<Location> {
        let mut class = BTreeSet::from([target]);
        loop {
            let before = class.len();
            for (left, right) in &self.ties {
                if class.contains(left) || class.contains(right) {
                    class.insert(*left);
                    class.insert(*right);
                }
            }
            if class.len() == before {
                return class;
            }
        }
    }
}

/// The cells that take the new value of a target, or 13 or 12. All paths are
/// followed in the state before the statement.
pub fn class_to_move(
    tables: &Tables,
    kept: &[&Identity],
    target: Location,
    target_prefix: Vec<Location>,
    value: Value,
) -> Result<BTreeSet<Location>, Fault> {
    let mut web = Web::of(tables, kept)?;
    if web.names(target) && !value.is_reference_or_nil() {
        return Err(Outcome::PlainIdentity.into());
    }
    web.frozen.extend(target_prefix);
    let class = web.class(target);
    let mut held = class.intersection(&web.frozen);
    if held.any(|cell| tables.cell(*cell) != Some(value)) {
        return Err(Outcome::IdentityClash.into());
    }
    Ok(class)
}
