//! Entries that mostly fit a state.

use crate::generator::compose::Composer;
use crate::tables::{Kind, Value};

/// One entry: numbers mostly, for cells that hold numbers.
pub fn entry(composer: &mut Composer) -> Vec<i32> {
    match composer.numbers.below(20) {
        0 => absent(composer),
        1 => of_any_kind(composer),
        2 => known(composer, |_| true),
        3..=6 if !composer.tied.is_empty() => tied(composer),
        7 | 8 => known(composer, |value| value.kind() == Kind::Boolean),
        _ => known(composer, |value| value.kind() == Kind::Integer),
    }
}

/// A literal of a kind; nil stands for references too.
fn literal(composer: &mut Composer, kind: Kind) -> Vec<i32> {
    match kind {
        Kind::Integer => vec![23, composer.numbers.literal()],
        Kind::Boolean => vec![composer.numbers.between(21, 22)],
        Kind::Nil | Kind::Reference => vec![20],
    }
}

pub fn any_literal(composer: &mut Composer) -> Vec<i32> {
    let kinds = [Kind::Integer, Kind::Boolean, Kind::Nil];
    let kind = composer.numbers.pick(&kinds).unwrap_or(Kind::Nil);
    literal(composer, kind)
}

/// Of the kind that the cell holds.
fn known(composer: &mut Composer, wanted: impl Fn(Value) -> bool) -> Vec<i32> {
    let Some(known) = composer.known(wanted) else {
        return absent(composer);
    };
    let literal = literal(composer, known.value.kind());
    [known.words, literal].concat()
}

fn of_any_kind(composer: &mut Composer) -> Vec<i32> {
    let Some(known) = composer.known(|_| true) else {
        return absent(composer);
    };
    let literal = any_literal(composer);
    [known.words, literal].concat()
}

fn absent(composer: &mut Composer) -> Vec<i32> {
    let variable = composer.absent_variable().unwrap_or(0);
    let literal = any_literal(composer);
    [vec![variable, 0], literal].concat()
}

/// Nil for a cell that an identity names.
fn tied(composer: &mut Composer) -> Vec<i32> {
    let path = composer.numbers.below(composer.tied.len());
    let path = composer.tied.get(path).cloned().unwrap_or(vec![0, 0]);
    [path, vec![20]].concat()
}
