//! The names that a program is written with, given ones and others.

use super::{Appearance, Sort};
use crate::text::{is_name, LABELS, LARGEST_TEXT, VARIABLES};
use std::borrow::Cow;

/// Why a number is refused with 24.
#[derive(Clone, Copy, Debug, PartialEq, Eq, PartialOrd, Ord)]
pub enum Fault {
    /// The given name is no part of the source.
    Outside,
    /// It has more than 65,536 bytes.
    Long,
    /// It is none that a text may have.
    NoName,
    /// An earlier number of the sort has the same name.
    Twice,
    /// The number before it is not used earlier.
    Order,
}

impl Fault {
    pub const ALL: [Fault; 5] = [
        Fault::Outside,
        Fault::Long,
        Fault::NoName,
        Fault::Twice,
        Fault::Order,
    ];
}

/// A name of each number that is given one or used.
type Spelling<'a> = Vec<Option<Cow<'a, [u8]>>>;

/// Names of which none is at fault.
#[derive(Debug)]
pub struct Names<'a> {
    variables: Spelling<'a>,
    labels: Spelling<'a>,
    pub variables_used: usize,
    pub labels_used: usize,
}

impl<'a> Names<'a> {
    /// The error is the first number at fault, labels counted from 64 on.
    pub fn judge(
        source: &'a [u8],
        table: &[i32],
        appearances: &[Appearance],
    ) -> Result<Names<'a>, (usize, Fault)> {
        let (variables, labels) = table.split_at(2 * VARIABLES);
        let used_variables = firsts(appearances, Sort::Variable, VARIABLES);
        let used_labels = firsts(appearances, Sort::Label, LABELS);
        let is_used = |first: &&Option<usize>| first.is_some();
        Ok(Names {
            variables: spelling(source, variables, 'v', &used_variables)?,
            labels: spelling(source, labels, 'f', &used_labels)
                .map_err(|(label, fault)| (VARIABLES + label, fault))?,
            variables_used: used_variables.iter().filter(is_used).count(),
            labels_used: used_labels.iter().filter(is_used).count(),
        })
    }

    pub fn variable(&self, number: usize) -> Cow<'a, [u8]> {
        name_of(&self.variables, number)
    }

    pub fn label(&self, number: usize) -> Cow<'a, [u8]> {
        name_of(&self.labels, number)
    }
}

fn name_of<'a>(spelling: &Spelling<'a>, number: usize) -> Cow<'a, [u8]> {
    spelling.get(number).cloned().flatten().unwrap_or_default()
}

/// Where each number of a sort appears first, as a place in the list.
fn firsts(appearances: &[Appearance], sort: Sort, count: usize) -> Vec<Option<usize>> {
    let mut firsts = vec![None; count];
    for (place, appearance) in appearances.iter().enumerate() {
        if let (true, Some(first)) = (appearance.sort == sort, firsts.get_mut(appearance.number)) {
            first.get_or_insert(place);
        }
    }
    firsts
}

fn spelling<'a>(
    source: &'a [u8],
    table: &[i32],
    letter: char,
    firsts: &[Option<usize>],
) -> Result<Spelling<'a>, (usize, Fault)> {
    let mut names: Spelling = Vec::new();
    let mut before = None;
    for (number, (pair, first)) in table.chunks(2).zip(firsts).enumerate() {
        let given = given(source, pair).map_err(|fault| (number, fault))?;
        let name = match (given, first) {
            (Some(given), _) => Some(Cow::Borrowed(given)),
            (None, Some(_)) => Some(Cow::Owned(format!("{letter}{number}").into_bytes())),
            (None, None) => None,
        };
        if name.is_some() && names.contains(&name) {
            return Err((number, Fault::Twice));
        }
        let is_late = before.is_some() && before < *first;
        if first.is_some() && number > 0 && !is_late {
            return Err((number, Fault::Order));
        }
        before = *first;
        names.push(name);
    }
    Ok(names)
}

/// The name that a place and a length give; none where the length is 0.
fn given<'a>(source: &'a [u8], pair: &[i32]) -> Result<Option<&'a [u8]>, Fault> {
    let &[place, length] = pair else {
        return Ok(None);
    };
    if length == 0 {
        return Ok(None);
    }
    let name = part(source, place, length).ok_or(Fault::Outside)?;
    if name.len() > LARGEST_TEXT {
        return Err(Fault::Long);
    }
    match is_name(name) {
        true => Ok(Some(name)),
        false => Err(Fault::NoName),
    }
}

fn part(source: &[u8], place: i32, length: i32) -> Option<&[u8]> {
    let place = usize::try_from(place).ok()?;
    let length = usize::try_from(length).ok()?;
    source.get(place..place.checked_add(length)?)
}
