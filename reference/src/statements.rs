//! What each statement does, and the tally it carries.

use crate::classes::Moves;
use crate::constraints;
use crate::evaluate;
use crate::identity;
use crate::outcome::{Fault, Operands, Outcome};
use crate::program::{Action, Always, Block, Constraint, Expression, Identity, Path, Statement};
use crate::proposal::{Source, Wanted};
use crate::tables::{Location, Tables, Value, IDENTITY_POSITIONS, RECORDS, VALUE_POSITIONS};
use std::rc::Rc;

/// A refusal from 5 on: its outcome, and the word at fault or the statement's.
#[derive(Clone, Copy, Debug, PartialEq, Eq)]
pub struct Refusal {
    pub outcome: Outcome,
    pub place: usize,
    pub operands: Option<Operands>,
}

/// A run under way. `tables` holds what the last accepted statement left.
pub struct Machine<'a, S> {
    pub always: &'a Always,
    pub tables: Tables,
    pub source: S,
    pub budget: u32,
    pub steps: u32,
    pub accepted: u32,
    pub moves: Moves,
}

impl<'a, S: Source> Machine<'a, S> {
    pub fn block(&mut self, block: &Block) -> Result<(), Refusal> {
        block.statements.iter().try_for_each(|s| self.statement(s))
    }

    pub fn statement(&mut self, statement: &Statement) -> Result<(), Refusal> {
        let place = statement.position;
        let at = |fault: Fault| Refusal {
            outcome: fault.outcome,
            place: fault.word.unwrap_or(place),
            operands: fault.operands,
        };
        self.step().map_err(at)?;
        match &statement.action {
            Action::Skip => Ok(()),
            Action::Assign(target, value) => self.assign(target, value).map_err(at),
            Action::New(variable, fields) => self.new_record(*variable, fields).map_err(at),
            Action::Always(constraint) => self.always(place, constraint).map_err(at),
            Action::Once(constraint) => self.once(constraint).map_err(at),
            Action::AlwaysIdentity(identity) => self.always_identity(place, identity).map_err(at),
            Action::OnceIdentity(identity) => identity::holds(&self.tables, identity).map_err(at),
            Action::If(test, yes, no) => {
                let truth = evaluate::test(&self.tables, test).map_err(at)?;
                self.block(if truth { yes } else { no })
            }
            Action::While(test, body) => {
                while evaluate::test(&self.tables, test).map_err(at)? {
                    self.block(body)?;
                    self.step().map_err(at)?;
                }
                Ok(())
            }
        }
    }

    fn step(&mut self) -> Result<(), Fault> {
        if self.steps >= self.budget {
            return Err(Outcome::BudgetSpent.into());
        }
        self.steps += 1;
        Ok(())
    }

    fn assign(&mut self, target: &Path, expression: &Expression) -> Result<(), Fault> {
        let value = evaluate::value(&self.tables, expression)?;
        let prefix = evaluate::prefix(&self.tables, target)?;
        let target = evaluate::locate(&self.tables, target)?;
        let after = self.tables.clone();
        self.give(target, prefix, value, after)
    }

    fn new_record(&mut self, variable: usize, fields: &[(usize, Expression)]) -> Result<(), Fault> {
        let mut values = Vec::with_capacity(fields.len());
        for (label, expression) in fields {
            values.push((*label, evaluate::value(&self.tables, expression)?));
        }
        let record = self.tables.record_count();
        if record >= RECORDS {
            return Err(Outcome::HeapFull.into());
        }
        let mut after = self.tables.clone();
        after.add_record(&values);
        self.give(variable, Vec::new(), Value::Reference(record), after)
    }

    /// Both phases of assign and new; `after` has the new record already.
    fn give(
        &mut self,
        target: Location,
        prefix: Vec<Location>,
        value: Value,
        mut after: Tables,
    ) -> Result<(), Fault> {
        let kept = self.kept_identities();
        let class = identity::class_to_move(&self.tables, &kept, target, prefix, value)?;
        for cell in &class {
            after.set(*cell, value);
        }
        let read = self.reads_on(&after);
        let done = read.and_then(|()| self.value_phase(after, None, Some(target)));
        match done {
            Ok(()) => self.moves.largest = self.moves.largest.max(class.len()),
            Err(_) => self.moves.taken_back = class.len(),
        }
        done
    }

    /// 15 has the word that 7 or 8 has in the first kept constraint that does
    /// not read.
    fn reads_on(&self, after: &Tables) -> Result<(), Fault> {
        let lost = |fault| Fault {
            outcome: Outcome::LostConstraint,
            ..fault
        };
        let mut kept = self.kept_constraints(after).into_iter();
        kept.try_for_each(|constraint| constraints::reads(after, constraint).map_err(lost))
    }

    fn always(&mut self, position: usize, constraint: &Constraint) -> Result<(), Fault> {
        constraints::reads(&self.tables, constraint)?;
        let mut after = self.tables.clone();
        keep(&mut after.values, position, VALUE_POSITIONS)?;
        self.value_phase(after, None, None)
    }

    fn once(&mut self, constraint: &Constraint) -> Result<(), Fault> {
        constraints::reads(&self.tables, constraint)?;
        self.value_phase(self.tables.clone(), Some(constraint), None)
    }

    fn always_identity(&mut self, position: usize, identity: &Identity) -> Result<(), Fault> {
        identity::holds(&self.tables, identity)?;
        keep(&mut self.tables.identities, position, IDENTITY_POSITIONS)
    }

    /// Reads one proposal for the constraints kept in `after` and the
    /// statement's own; accepted, `after` with its changes is the new state.
    fn value_phase(
        &mut self,
        mut after: Tables,
        own: Option<&Constraint>,
        target: Option<Location>,
    ) -> Result<(), Fault> {
        let mut active = self.kept_constraints(&after);
        active.extend(own);
        let proposal = self.source.proposal(&Wanted {
            tables: &after,
            constraints: &active,
            target,
        })?;
        let satisfied = !proposal.entries.is_empty()
            && active
                .iter()
                .all(|constraint| constraints::all_parts_hold(&after, constraint));
        proposal.carry_out(&mut after, target)?;
        if satisfied {
            return Err(Outcome::NeedlessChange.into());
        }
        let mut required = active.iter();
        if !required.all(|constraint| constraints::required_parts_hold(&after, constraint)) {
            return Err(Outcome::RequiredUnmet.into());
        }
        self.source.accept(proposal.length());
        self.accepted += 1;
        self.tables = after;
        Ok(())
    }

    fn kept_constraints(&self, tables: &Tables) -> Vec<&'a Constraint> {
        let all = &self.always.constraints;
        let known = |position| all.get(position).map(Rc::as_ref);
        tables.values.iter().filter_map(known).collect()
    }

    fn kept_identities(&self) -> Vec<&'a Identity> {
        let all = &self.always.identities;
        let known = |position| all.get(position).map(Rc::as_ref);
        self.tables.identities.iter().filter_map(known).collect()
    }
}

/// Adds a position unless it is kept already, or 14.
fn keep(positions: &mut Vec<usize>, position: usize, room: usize) -> Result<(), Fault> {
    if positions.contains(&position) {
        return Ok(());
    }
    if positions.len() >= room {
        return Err(Outcome::NoRoom.into());
    }
    positions.push(position);
    Ok(())
}
