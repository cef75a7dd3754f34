//! Fit tables to start from, with records that may refer in circles.

use super::compose::{LABEL_NAMES, VARIABLE_NAMES};
use super::numbers::Numbers;
use crate::tables::{Tables, Value};

fn value(numbers: &mut Numbers, records: usize) -> Value {
    match numbers.below(10) {
        0 => Value::Nil,
        1 | 2 => Value::Boolean(numbers.chance(50)),
        3..=5 if records > 0 => Value::Reference(numbers.below(records)),
        _ => Value::Integer(numbers.literal()),
    }
}

/// Random tables with a number of records and nothing kept.
pub fn tables(numbers: &mut Numbers, records: usize) -> Tables {
    let mut tables = Tables::default();
    for _ in 0..records {
        let first = numbers.below(LABEL_NAMES.len());
        let count = match numbers.below(12) {
            0 => 6,
            _ => numbers.below(4),
        };
        let labels = LABEL_NAMES.iter().cycle().skip(first).take(count);
        let fields: Vec<(usize, Value)> = labels
            .filter_map(|label| usize::try_from(*label).ok())
            .map(|label| (label, value(numbers, records)))
            .collect();
        tables.add_record(&fields);
    }
    for variable in VARIABLE_NAMES {
        if let (Ok(variable), true) = (usize::try_from(variable), numbers.chance(60)) {
            tables.set(variable, value(numbers, records));
        }
    }
    tables
}

/// Fresh tables mostly, otherwise a few records.
pub fn usual(numbers: &mut Numbers) -> Tables {
    if numbers.chance(55) {
        return Tables::default();
    }
    let records = numbers.below(6);
    tables(numbers, records)
}
