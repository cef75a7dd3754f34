//! Expressions, constraints and paths that mostly fit a state.

use super::numbers::Numbers;
use crate::tables::{Kind, Location, Tables, Value, VARIABLES};

/// Variables and labels that composed programs use.
pub const VARIABLE_NAMES: [i32; 9] = [0, 1, 2, 3, 4, 5, 6, 7, 63];
pub const LABEL_NAMES: [i32; 6] = [0, 1, 2, 3, 4, 31];
const ARITHMETIC: [i32; 5] = [1, 1, 2, 2, 3];
const COMPARISONS: [i32; 7] = [4, 5, 6, 6, 7, 8, 9];
/// The kinds of which 6 and 7 take two.
const PLAIN: [Kind; 3] = [Kind::Nil, Kind::Boolean, Kind::Integer];

/// A path that exists, and what its cell holds.
#[derive(Clone, Debug)]
pub struct Known {
    pub words: Vec<i32>,
    pub location: Location,
    pub value: Value,
}

/// Whether identities (26) may stand in an expression.
#[derive(Clone, Copy, PartialEq, Eq)]
pub enum Place {
    Statement,
    Constraint,
}

pub struct Composer<'a> {
    pub tables: &'a Tables,
    pub numbers: &'a mut Numbers,
    /// Paths that kept identities name, as words.
    pub tied: Vec<Vec<i32>>,
    present: Vec<Location>,
}

impl<'a> Composer<'a> {
    pub fn new(tables: &'a Tables, numbers: &'a mut Numbers) -> Composer<'a> {
        let cells = tables.cells().map(|(location, _)| location);
        let present = cells.take_while(|location| *location < VARIABLES).collect();
        Composer {
            tables,
            numbers,
            tied: Vec::new(),
            present,
        }
    }

    pub fn variable(&mut self) -> i32 {
        self.numbers.one_of(&VARIABLE_NAMES)
    }

    pub fn absent_variable(&mut self) -> Option<i32> {
        let start = self.numbers.below(VARIABLES);
        let mut all = (start..VARIABLES).chain(0..start);
        let absent = all.find(|variable| self.tables.cell(*variable).is_none())?;
        i32::try_from(absent).ok()
    }

    /// A random walk from a present variable over fields.
    fn walk(&mut self) -> Option<Known> {
        let mut location = self.numbers.pick(&self.present)?;
        let mut value = self.tables.cell(location)?;
        let mut words = vec![i32::try_from(location).ok()?, 0];
        while let Value::Reference(record) = value {
            let labels = self.tables.labels(record);
            if words.len() >= 9 || labels.is_empty() || self.numbers.chance(25) {
                break;
            }
            let label = self.numbers.pick(labels)?;
            location = self.tables.field(record, label)?;
            value = self.tables.cell(location)?;
            words.push(i32::try_from(label).ok()?);
        }
        let labels = i32::try_from(words.len()).ok()? - 2;
        words.splice(1..2, [labels]);
        Some(Known {
            words,
            location,
            value,
        })
    }

    /// A path whose cell holds a wanted value, if a few walks find one.
    pub fn known(&mut self, wanted: impl Fn(Value) -> bool) -> Option<Known> {
        for _ in 0..10 {
            let known = self.walk()?;
            if wanted(known.value) {
                return Some(known);
            }
        }
        None
    }

    pub fn known_of(&mut self, kind: Kind) -> Option<Known> {
        self.known(|value| value.kind() == kind)
    }

    /// `24 L` for a cell of a kind, or a literal where there is none.
    pub fn leaf(&mut self, words: &mut Vec<i32>, kind: Kind) {
        if self.numbers.chance(65) || kind == Kind::Reference {
            if let Some(known) = self.known_of(kind) {
                words.push(24);
                words.extend(known.words);
                return;
            }
        }
        match kind {
            Kind::Integer => words.extend([23, self.numbers.literal()]),
            Kind::Boolean => words.push(self.numbers.between(21, 22)),
            _ => words.push(20),
        }
    }

    pub fn integer(&mut self, words: &mut Vec<i32>, depth: usize) {
        if depth <= 1 || self.numbers.chance(35) {
            return self.leaf(words, Kind::Integer);
        }
        words.extend([25, self.numbers.one_of(&ARITHMETIC)]);
        self.integer(words, depth - 1);
        self.integer(words, depth - 1);
    }

    pub fn boolean(&mut self, words: &mut Vec<i32>, depth: usize, place: Place) {
        if depth <= 1 {
            return self.leaf(words, Kind::Boolean);
        }
        match self.numbers.below(10) {
            0 => self.leaf(words, Kind::Boolean),
            1 | 2 => {
                words.extend([25, self.numbers.between(10, 11)]);
                self.boolean(words, depth - 1, place);
                self.boolean(words, depth - 1, place);
            }
            3 => {
                words.extend([25, self.numbers.between(6, 7)]);
                let kind = self.numbers.pick(&PLAIN).unwrap_or(Kind::Nil);
                self.leaf(words, kind);
                self.leaf(words, kind);
            }
            4 | 5 if place == Place::Statement => self.identical(words),
            _ => {
                words.extend([25, self.numbers.one_of(&COMPARISONS)]);
                self.integer(words, depth - 1);
                self.integer(words, depth - 1);
            }
        }
    }

    fn identical(&mut self, words: &mut Vec<i32>) {
        match (self.known(|_| true), self.known(|_| true)) {
            (Some(left), Some(right)) => {
                words.push(26);
                words.extend(left.words);
                words.extend(right.words);
            }
            _ => words.push(22),
        }
    }

    /// An expression of a kind; a reference needs a cell that holds one.
    pub fn expression(&mut self, words: &mut Vec<i32>, kind: Kind, depth: usize) {
        match kind {
            Kind::Integer => self.integer(words, depth),
            Kind::Boolean => self.boolean(words, depth, Place::Statement),
            _ => self.leaf(words, kind),
        }
    }

    /// A whole C: m, then priorities and parts.
    pub fn constraint(&mut self, words: &mut Vec<i32>) {
        let count = match self.numbers.below(20) {
            0 => self.numbers.between(4, 16),
            1..=5 => self.numbers.between(2, 3),
            _ => 1,
        };
        words.push(count);
        for _ in 0..count {
            words.push(self.numbers.one_of(&[3, 3, 3, 2, 1]));
            self.part(words);
        }
    }

    fn part(&mut self, words: &mut Vec<i32>) {
        let (Some(known), false) = (self.known_of(Kind::Integer), self.numbers.chance(20)) else {
            return self.boolean(words, 3, Place::Constraint);
        };
        if self.numbers.chance(8) {
            return self.large_part(words, &known.words);
        }
        let operator = match self.numbers.below(3) {
            0 => self.numbers.one_of(&COMPARISONS),
            _ => 6,
        };
        words.extend([25, operator, 24]);
        words.extend(known.words);
        let depth = 1 + self.numbers.below(3);
        self.integer(words, depth);
    }

    /// A part that holds unless its product leaves 32 bits.
    fn large_part(&mut self, words: &mut Vec<i32>, path: &[i32]) {
        let factor = self
            .numbers
            .one_of(&[1 << 30, 1 << 29, 500_000_000, i32::MIN]);
        words.extend([25, 11, 22, 25, self.numbers.one_of(&COMPARISONS), 25, 3, 24]);
        words.extend(path);
        words.extend([23, factor, 23, self.numbers.literal()]);
    }

    /// Two paths whose cells hold the same reference or nil.
    pub fn identical_paths(&mut self) -> Option<(Known, Known)> {
        let left = self.known(Value::is_reference_or_nil)?;
        let value = left.value;
        let right = self.known(|other| other == value)?;
        Some((left, right))
    }
}
