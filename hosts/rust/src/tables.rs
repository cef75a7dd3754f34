//! The tables that a run is lent: what they hold, and how they print.

use core::fmt;

/// Words of an environment: kind and payload of the variables 0 to 63.
pub const ENVIRONMENT_WORDS: usize = 128;
/// Words of a heap: the record count, and 64 records of 25 words.
pub const HEAP_WORDS: usize = 1601;
/// Words of a constraints table: two counts, 64 value positions and 32
/// identity positions.
pub const CONSTRAINTS_WORDS: usize = 98;

const RECORD_WORDS: usize = 25;
const FIELD_WORDS: usize = 3;
const VALUE_POSITIONS: usize = 64;

/// What a present cell holds. Prints as `nil`, `bool 1`, `int -5`, `ref 0`.
#[derive(Clone, Copy, Debug, PartialEq, Eq, Hash)]
pub enum Value {
    /// No record.
    Nil,
    /// A boolean.
    Bool(bool),
    /// A whole number.
    Int(i32),
    /// A reference to the record of this number.
    Ref(usize),
}

/// The three tables of a run: environment, heap and constraints.
///
/// The words stand open, so that a host can store them and bring them back;
/// document 01, "Lent tables", says what each is. Words that are unfit are
/// refused by the run and read here as absent.
///
/// Prints as the lister does: each present variable, each record with its
/// fields, then the kept positions, a line each.
#[derive(Clone, Debug, PartialEq, Eq)]
pub struct Tables {
    /// The variables.
    pub environment: [i32; ENVIRONMENT_WORDS],
    /// The records.
    pub heap: [i32; HEAP_WORDS],
    /// The kept positions.
    pub constraints: [i32; CONSTRAINTS_WORDS],
}

impl Tables {
    /// Tables that hold nothing.
    pub const fn fresh() -> Tables {
        Tables {
            environment: [0; ENVIRONMENT_WORDS],
            heap: [0; HEAP_WORDS],
            constraints: [0; CONSTRAINTS_WORDS],
        }
    }

    /// What a variable holds; none if it is absent.
    pub fn variable(&self, variable: usize) -> Option<Value> {
        let at = variable.checked_mul(2)?;
        self.value(self.environment.get(at..)?)
    }

    /// What a record's field holds; none if there is no such record or field.
    pub fn field(&self, record: usize, label: usize) -> Option<Value> {
        let mut fields = self.fields(record);
        fields.find(|field| field.0 == label).map(|field| field.1)
    }

    /// What a path from a variable through labels leads to.
    pub fn at(&self, variable: usize, labels: &[usize]) -> Option<Value> {
        let first = self.variable(variable)?;
        labels.iter().try_fold(first, |value, label| match value {
            Value::Ref(record) => self.field(record, *label),
            _ => None,
        })
    }

    /// How many records there are.
    pub fn records(&self) -> usize {
        count(self.heap.first())
    }

    /// A record's labels and what stands under them, in their order; nothing
    /// if there is no such record.
    pub fn fields(&self, record: usize) -> impl Iterator<Item = (usize, Value)> + '_ {
        let there = record < self.records();
        let mut records = self.heap.get(1..).unwrap_or_default().chunks(RECORD_WORDS);
        let words = records.nth(record).filter(|_| there).unwrap_or_default();
        let (used, fields) = words.split_first().unwrap_or((&0, &[]));
        let used = fields.chunks(FIELD_WORDS).take(count(Some(used)));
        used.filter_map(|field| {
            let (label, cell) = field.split_first()?;
            Some((usize::try_from(*label).ok()?, self.value(cell)?))
        })
    }

    /// The positions of the kept value constraints, in kept order.
    pub fn kept_constraints(&self) -> &[i32] {
        let positions = self.constraints.get(2..2 + VALUE_POSITIONS);
        first(positions.unwrap_or_default(), self.constraints.first())
    }

    /// The positions of the kept identities, in kept order.
    pub fn kept_identities(&self) -> &[i32] {
        let positions = self.constraints.get(2 + VALUE_POSITIONS..);
        first(positions.unwrap_or_default(), self.constraints.get(1))
    }

    /// The value of a cell's two words; none if it is absent or unfit.
    fn value(&self, cell: &[i32]) -> Option<Value> {
        let (kind, payload) = (*cell.first()?, *cell.get(1)?);
        match (kind, payload) {
            (1, 0) => Some(Value::Nil),
            (2, 0 | 1) => Some(Value::Bool(payload == 1)),
            (3, _) => Some(Value::Int(payload)),
            (4, _) => {
                let record = usize::try_from(payload).ok()?;
                (record < self.records()).then_some(Value::Ref(record))
            }
            _ => None,
        }
    }
}

impl Default for Tables {
    fn default() -> Tables {
        Tables::fresh()
    }
}

/// A count word; 0 if it is negative or missing.
fn count(word: Option<&i32>) -> usize {
    word.map_or(0, |word| usize::try_from(*word).unwrap_or(0))
}

fn first<'a>(positions: &'a [i32], used: Option<&i32>) -> &'a [i32] {
    positions.get(..count(used)).unwrap_or(positions)
}

impl fmt::Display for Value {
    fn fmt(&self, out: &mut fmt::Formatter<'_>) -> fmt::Result {
        match self {
            Value::Nil => write!(out, "nil"),
            Value::Bool(truth) => write!(out, "bool {}", u8::from(*truth)),
            Value::Int(number) => write!(out, "int {number}"),
            Value::Ref(record) => write!(out, "ref {record}"),
        }
    }
}

impl fmt::Display for Tables {
    fn fmt(&self, out: &mut fmt::Formatter<'_>) -> fmt::Result {
        for variable in 0..ENVIRONMENT_WORDS / 2 {
            if let Some(value) = self.variable(variable) {
                writeln!(out, "v{variable}={value}")?;
            }
        }
        for record in 0..self.records().min(HEAP_WORDS / RECORD_WORDS) {
            writeln!(out, "r{record}={}", self.fields(record).count())?;
            for (label, value) in self.fields(record) {
                writeln!(out, "r{record}.{label}={value}")?;
            }
        }
        for (number, position) in self.kept_constraints().iter().enumerate() {
            writeln!(out, "c{number}={position}")?;
        }
        for (number, position) in self.kept_identities().iter().enumerate() {
            writeln!(out, "i{number}={position}")?;
        }
        Ok(())
    }
}
