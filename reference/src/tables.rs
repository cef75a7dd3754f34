//! The lent tables as maps, and back.

use crate::program::Always;
use std::collections::BTreeMap;

pub const ENVIRONMENT_WORDS: usize = 128;
pub const HEAP_WORDS: usize = 1601;
pub const CONSTRAINT_WORDS: usize = 98;
pub const VARIABLES: usize = 64;
pub const RECORDS: usize = 64;
pub const FIELDS: usize = 8;
pub const RECORD_WORDS: usize = 25;
pub const LABELS: usize = 32;
pub const VALUE_POSITIONS: usize = 64;
pub const IDENTITY_POSITIONS: usize = 32;

/// Numbers a cell as proposals do: variables first, then fields by place.
pub type Location = usize;

#[derive(Clone, Copy, Debug, PartialEq, Eq)]
pub enum Value {
    Nil,
    Boolean(bool),
    Integer(i32),
    Reference(usize),
}

#[derive(Clone, Copy, Debug, PartialEq, Eq)]
pub enum Kind {
    Nil,
    Boolean,
    Integer,
    Reference,
}

impl Value {
    pub fn kind(self) -> Kind {
        match self {
            Value::Nil => Kind::Nil,
            Value::Boolean(_) => Kind::Boolean,
            Value::Integer(_) => Kind::Integer,
            Value::Reference(_) => Kind::Reference,
        }
    }

    /// Only these may stand in a cell that an identity names.
    pub fn is_reference_or_nil(self) -> bool {
        matches!(self, Value::Nil | Value::Reference(_))
    }

    pub fn words(self) -> (i32, i32) {
        match self {
            Value::Nil => (1, 0),
            Value::Boolean(truth) => (2, i32::from(truth)),
            Value::Integer(number) => (3, number),
            Value::Reference(record) => (4, word(record)),
        }
    }
}

fn word(number: usize) -> i32 {
    i32::try_from(number).unwrap_or(i32::MAX)
}

/// What the three tables say: present cells, each record's labels in field
/// order, and the kept positions in kept order.
#[derive(Clone, Debug, Default, PartialEq, Eq)]
pub struct Tables {
    cells: BTreeMap<Location, Value>,
    records: Vec<Vec<usize>>,
    pub values: Vec<usize>,
    pub identities: Vec<usize>,
}

/// Which table is unfit, under its place number.
#[derive(Clone, Copy, Debug, PartialEq, Eq)]
pub enum Unfit {
    Environment = 0,
    Heap = 1,
    Constraints = 2,
}

pub fn field_location(record: usize, place: usize) -> Location {
    VARIABLES + FIELDS * record + place
}

impl Tables {
    /// Tables that need not be fit: present cells, and each record's labels.
    pub fn of(cells: BTreeMap<Location, Value>, records: Vec<Vec<usize>>) -> Tables {
        Tables {
            cells,
            records,
            ..Tables::default()
        }
    }

    pub fn cell(&self, location: Location) -> Option<Value> {
        self.cells.get(&location).copied()
    }

    pub fn set(&mut self, location: Location, value: Value) {
        self.cells.insert(location, value);
    }

    /// Present cells in rising order of location.
    pub fn cells(&self) -> impl Iterator<Item = (Location, Value)> + '_ {
        self.cells
            .iter()
            .map(|(location, value)| (*location, *value))
    }

    pub fn record_count(&self) -> usize {
        self.records.len()
    }

    pub fn labels(&self, record: usize) -> &[usize] {
        self.records.get(record).map_or(&[], Vec::as_slice)
    }

    pub fn field(&self, record: usize, label: usize) -> Option<Location> {
        let place = self.labels(record).iter().position(|own| *own == label)?;
        Some(field_location(record, place))
    }

    pub fn add_record(&mut self, fields: &[(usize, Value)]) {
        let record = self.records.len();
        for (place, (_, value)) in fields.iter().enumerate() {
            self.set(field_location(record, place), *value);
        }
        self.records
            .push(fields.iter().map(|(label, _)| *label).collect());
    }

    /// Reads fit tables; the error names the first unfit one.
    pub fn decode(
        environment: &[i32],
        heap: &[i32],
        constraints: &[i32],
        always: &Always,
    ) -> Result<Tables, Unfit> {
        let mut tables = Tables::default();
        let count = heap.first().copied().unwrap_or(0);
        tables
            .decode_environment(environment, count)
            .ok_or(Unfit::Environment)?;
        tables.decode_heap(heap).ok_or(Unfit::Heap)?;
        tables
            .decode_constraints(constraints, always)
            .ok_or(Unfit::Constraints)?;
        Ok(tables)
    }

    fn decode_environment(&mut self, words: &[i32], count: i32) -> Option<()> {
        for (variable, pair) in words.chunks(2).enumerate() {
            let &[kind, payload] = pair else { return None };
            if (kind, payload) != (0, 0) {
                self.set(variable, value(kind, payload, count)?);
            }
        }
        Some(())
    }

    fn decode_heap(&mut self, words: &[i32]) -> Option<()> {
        let (&count, rest) = words.split_first()?;
        let used = usize::try_from(count).ok().filter(|n| *n <= RECORDS)?;
        for (number, record) in rest.chunks(RECORD_WORDS).enumerate() {
            if number < used {
                let fields = decode_record(record, count)?;
                self.add_record(&fields);
            } else if record.iter().any(|word| *word != 0) {
                return None;
            }
        }
        Some(())
    }

    fn decode_constraints(&mut self, words: &[i32], always: &Always) -> Option<()> {
        let (counts, positions) = words.split_at_checked(2)?;
        let &[values, identities] = counts else {
            return None;
        };
        let (first, second) = positions.split_at_checked(VALUE_POSITIONS)?;
        self.values = decode_positions(values, first, |p| always.constraints.contains_key(&p))?;
        self.identities =
            decode_positions(identities, second, |p| always.identities.contains_key(&p))?;
        Some(())
    }

    /// Writes the tables out as words; unused words become 0.
    pub fn encode(&self, environment: &mut [i32], heap: &mut [i32], constraints: &mut [i32]) {
        environment.fill(0);
        heap.fill(0);
        constraints.fill(0);
        for (location, value) in self.cells() {
            let (kind, payload) = value.words();
            if location < VARIABLES {
                put(environment, 2 * location, &[kind, payload]);
            } else {
                let record = (location - VARIABLES) / FIELDS;
                let place = (location - VARIABLES) % FIELDS;
                let at = 1 + RECORD_WORDS * record + 1 + 3 * place;
                let label = self.labels(record).get(place).copied().unwrap_or(0);
                put(heap, at, &[word(label), kind, payload]);
            }
        }
        put(heap, 0, &[word(self.records.len())]);
        for (record, labels) in self.records.iter().enumerate() {
            put(heap, 1 + RECORD_WORDS * record, &[word(labels.len())]);
        }
        let counts = [word(self.values.len()), word(self.identities.len())];
        put(constraints, 0, &counts);
        put(constraints, 2, &words_of(&self.values));
        put(
            constraints,
            2 + VALUE_POSITIONS,
            &words_of(&self.identities),
        );
    }
}

fn words_of(positions: &[usize]) -> Vec<i32> {
    positions.iter().map(|position| word(*position)).collect()
}

fn put(table: &mut [i32], at: usize, words: &[i32]) {
    for (slot, word) in table.iter_mut().skip(at).zip(words) {
        *slot = *word;
    }
}

/// A present value from its words; references are held to the count word.
fn value(kind: i32, payload: i32, count: i32) -> Option<Value> {
    match (kind, payload) {
        (1, 0) => Some(Value::Nil),
        (2, 0 | 1) => Some(Value::Boolean(payload == 1)),
        (3, _) => Some(Value::Integer(payload)),
        (4, _) if payload < count => usize::try_from(payload).ok().map(Value::Reference),
        _ => None,
    }
}

fn decode_record(words: &[i32], count: i32) -> Option<Vec<(usize, Value)>> {
    let (&used, rest) = words.split_first()?;
    let used = usize::try_from(used).ok().filter(|n| *n <= FIELDS)?;
    let mut fields: Vec<(usize, Value)> = Vec::with_capacity(used);
    for (place, field) in rest.chunks(3).enumerate() {
        let &[label, kind, payload] = field else {
            return None;
        };
        if place >= used {
            if field != [0, 0, 0] {
                return None;
            }
            continue;
        }
        let label = usize::try_from(label).ok().filter(|n| *n < LABELS)?;
        if fields.iter().any(|(earlier, _)| *earlier == label) {
            return None;
        }
        fields.push((label, value(kind, payload, count)?));
    }
    Some(fields)
}

fn decode_positions(
    count: i32,
    words: &[i32],
    is_always: impl Fn(usize) -> bool,
) -> Option<Vec<usize>> {
    let count = usize::try_from(count).ok()?;
    let (used, unused) = words.split_at_checked(count)?;
    if unused.iter().any(|word| *word != 0) {
        return None;
    }
    let mut positions = Vec::with_capacity(count);
    for word in used {
        let position = usize::try_from(*word).ok()?;
        if !is_always(position) || positions.contains(&position) {
            return None;
        }
        positions.push(position);
    }
    Some(positions)
}
