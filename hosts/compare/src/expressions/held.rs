//! The lent tables as the independent program holds them.

use reference::program::Always;
use reference::tables::{
    field_location, Tables, Value, CONSTRAINT_WORDS, ENVIRONMENT_WORDS, FIELDS, HEAP_WORDS,
    RECORDS, RECORD_WORDS, VALUE_POSITIONS, VARIABLES,
};
use std::collections::BTreeMap;

/// A negative or missing word as a number: no word is this number.
pub const NO_NUMBER: usize = 1 << 31;

/// Fit tables by the independent program's own decoder.
pub fn fit(environment: &[i32], heap: &[i32]) -> Option<Tables> {
    if environment.len() != ENVIRONMENT_WORDS || heap.len() != HEAP_WORDS {
        return None;
    }
    let constraints = [0; CONSTRAINT_WORDS];
    Tables::decode(environment, heap, &constraints, &Always::default()).ok()
}

/// Unfit tables by the content that docs/DECISIONS.md gives them: a cell of
/// another kind is absent, a record whose field count is out of range has no
/// field, and words past the end are 0, or no number.
pub fn unfit(environment: &[i32], heap: &[i32]) -> Tables {
    let mut cells = BTreeMap::new();
    for variable in 0..VARIABLES {
        insert(&mut cells, variable, environment, 2 * variable);
    }
    let mut records = Vec::with_capacity(RECORDS);
    for record in 0..RECORDS {
        let at = 1 + RECORD_WORDS * record;
        let count = number(heap, at);
        let count = if count <= FIELDS { count } else { 0 };
        for place in 0..FIELDS {
            let location = field_location(record, place);
            insert(&mut cells, location, heap, at + 2 + 3 * place);
        }
        let labels = (0..count).map(|place| number(heap, at + 1 + 3 * place));
        records.push(labels.collect());
    }
    Tables::of(cells, records)
}

fn insert(cells: &mut BTreeMap<usize, Value>, location: usize, words: &[i32], at: usize) {
    let word = |at: usize| words.get(at).copied().unwrap_or(0);
    if let Some(value) = value(word(at), word(at + 1)) {
        cells.insert(location, value);
    }
}

/// A negative reference is handed over as the greatest word.
fn value(kind: i32, payload: i32) -> Option<Value> {
    match kind {
        1 => Some(Value::Nil),
        2 => Some(Value::Boolean(payload == 1)),
        3 => Some(Value::Integer(payload)),
        4 => Some(Value::Reference(
            usize::try_from(payload).unwrap_or(NO_NUMBER - 1),
        )),
        _ => None,
    }
}

pub fn number(words: &[i32], at: usize) -> usize {
    let word = words.get(at).copied();
    word.and_then(|word| usize::try_from(word).ok())
        .unwrap_or(NO_NUMBER)
}

/// The kept value positions; none where their count is out of range.
pub fn positions(constraints: &[i32]) -> Vec<usize> {
    let count = number(constraints, 0);
    let count = if count <= VALUE_POSITIONS { count } else { 0 };
    (0..count).map(|i| number(constraints, 2 + i)).collect()
}
