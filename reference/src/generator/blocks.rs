//! Statements that mostly fit a state, with blocks and loops.

use super::compose::{Composer, Place, LABEL_NAMES, VARIABLE_NAMES};
use crate::tables::{Kind, VARIABLES};

/// Counters of loops stand apart from other variables.
const COUNTERS: [i32; 4] = [40, 41, 42, 62];

impl Composer<'_> {
    /// One statement; `depth` is how many levels of blocks it may open.
    pub fn statement(&mut self, depth: usize) -> Vec<i32> {
        match self.numbers.below(100) {
            0..=1 => vec![0],
            2..=20 => self.assign_variable(),
            21..=37 => self.assign_path(),
            38..=48 => self.new_record(),
            49..=61 => self.always_or_once(3),
            62..=67 => self.always_or_once(4),
            68..=73 => self.identity(),
            74..=76 if depth > 0 => self.family(),
            77..=84 if !self.tied.is_empty() => self.move_tied(),
            85..=91 if depth > 0 => self.branch(depth),
            92..=99 if depth > 0 => self.counted_loop(depth),
            _ => self.assign_path(),
        }
    }

    /// One that reads a proposal, of a sort from 1 to 4.
    pub fn asked(&mut self, sort: i32) -> Vec<i32> {
        match sort {
            1 if self.numbers.chance(50) => self.assign_variable(),
            1 => self.assign_path(),
            2 => self.new_record(),
            _ => self.always_or_once(sort),
        }
    }

    fn any_kind(&mut self) -> Kind {
        let kinds = [
            Kind::Integer,
            Kind::Integer,
            Kind::Integer,
            Kind::Boolean,
            Kind::Nil,
            Kind::Reference,
        ];
        self.numbers.pick(&kinds).unwrap_or(Kind::Integer)
    }

    /// Mostly of the kind that the variable holds already.
    fn assign_variable(&mut self) -> Vec<i32> {
        let variable = self.variable();
        let held = usize::try_from(variable)
            .ok()
            .and_then(|location| self.tables.cell(location));
        let kind = match held {
            Some(value) if self.numbers.chance(85) => value.kind(),
            _ => self.any_kind(),
        };
        let mut words = vec![1, variable, 0];
        let depth = 1 + self.numbers.below(4);
        self.expression(&mut words, kind, depth);
        words
    }

    fn assign_path(&mut self) -> Vec<i32> {
        let deep = |known: &super::compose::Known| known.location >= VARIABLES;
        let mut known = self.known(|_| true);
        for _ in 0..4 {
            if !known.as_ref().is_some_and(deep) {
                known = self.known(|_| true);
            }
        }
        let Some(known) = known else {
            return self.assign_variable();
        };
        let kind = match self.numbers.chance(88) {
            true => known.value.kind(),
            false => self.any_kind(),
        };
        let mut words = vec![1];
        words.extend(known.words);
        let depth = 1 + self.numbers.below(4);
        self.expression(&mut words, kind, depth);
        words
    }

    pub fn new_record(&mut self) -> Vec<i32> {
        let count = self.numbers.below(5);
        let start = self.numbers.below(LABEL_NAMES.len());
        let labels = LABEL_NAMES.iter().cycle().skip(start).take(count);
        let mut words = vec![2, self.variable(), i32::try_from(count).unwrap_or(0)];
        for label in labels {
            words.push(*label);
            let kind = self.any_kind();
            let depth = 1 + self.numbers.below(2);
            self.expression(&mut words, kind, depth);
        }
        words
    }

    fn always_or_once(&mut self, statement: i32) -> Vec<i32> {
        let mut words = vec![statement];
        self.constraint(&mut words);
        words
    }

    fn identity(&mut self) -> Vec<i32> {
        let Some((left, right)) = self.identical_paths() else {
            return self.new_record();
        };
        let mut words = vec![self.numbers.one_of(&[5, 5, 6])];
        words.extend(left.words);
        words.extend(right.words);
        words
    }

    /// A record that several cells hold, tied to each other.
    pub fn family(&mut self) -> Vec<i32> {
        let start = self.numbers.below(VARIABLE_NAMES.len());
        let mut names = VARIABLE_NAMES.iter().cycle().skip(start);
        let mut name = || names.next().copied().unwrap_or(0);
        let (a, b, c) = (name(), name(), name());
        let first = vec![2, a, 1, 1, 23, self.numbers.small(), 1, b, 0, 24, a, 0];
        let rest = match self.numbers.below(5) {
            0 => vec![1, c, 0, 24, b, 0, 5, a, 0, b, 0, 5, c, 0, b, 0],
            1 => vec![2, c, 1, 0, 24, a, 0, 5, a, 0, b, 0, 5, c, 1, 0, a, 0],
            2 => vec![
                2, c, 2, 0, 24, a, 0, 4, 24, a, 0, 5, c, 1, 4, c, 1, 0, 5, b, 0, c, 1, 4,
            ],
            3 => vec![
                2, c, 1, 0, 24, a, 0, 2, a, 1, 3, 24, c, 0, 5, b, 0, a, 2, 3, 0,
            ],
            _ => vec![2, c, 1, 0, 24, b, 0, 5, c, 1, 0, b, 0, 6, c, 1, 0, a, 0],
        };
        [&[7, 22, 5][..], &first, &rest, &[0]].concat()
    }

    /// A reference, nil or new record for a cell that an identity names.
    fn move_tied(&mut self) -> Vec<i32> {
        let path = self.numbers.below(self.tied.len());
        let path = self.tied.get(path).cloned().unwrap_or(vec![0, 0]);
        let made = self.new_record();
        match (path.as_slice(), made.as_slice()) {
            ([variable, 0], [2, _, rest @ ..]) if self.numbers.chance(40) => {
                [&[2, *variable][..], rest].concat()
            }
            _ => {
                let kinds = [Kind::Reference, Kind::Reference, Kind::Nil];
                let kind = self.numbers.pick(&kinds).unwrap_or(Kind::Nil);
                let mut words = [&[1][..], &path].concat();
                self.leaf(&mut words, kind);
                words
            }
        }
    }

    fn block(&mut self, words: &mut Vec<i32>, count: usize, depth: usize) {
        words.push(i32::try_from(count).unwrap_or(0));
        for _ in 0..count {
            words.extend(self.statement(depth - 1));
        }
    }

    fn branch(&mut self, depth: usize) -> Vec<i32> {
        let mut words = vec![7];
        self.boolean(&mut words, 3, Place::Statement);
        for _ in 0..2 {
            let count = self.numbers.below(3);
            self.block(&mut words, count, depth);
        }
        words
    }

    /// `if true` with a start of the counter and a loop that counts it up.
    fn counted_loop(&mut self, depth: usize) -> Vec<i32> {
        let counter = self.numbers.one_of(&COUNTERS);
        let rounds = self.numbers.between(1, 6);
        let mut words = vec![7, 22, 2, 1, counter, 0, 23, 0];
        words.extend([8, 25, 4, 24, counter, 0, 23, rounds]);
        let count = 1 + self.numbers.below(3);
        let place = words.len();
        self.block(&mut words, count, depth);
        words.splice(place..place + 1, [i32::try_from(count).unwrap_or(0) + 1]);
        let count_up = [1, counter, 0, 25, 1, 24, counter, 0, 23, 1];
        words.extend(count_up);
        words.push(0);
        words
    }

    /// The statement alone, or inside some blocks that run it.
    pub fn wrapped(&mut self, statement: Vec<i32>) -> Vec<i32> {
        match self.numbers.below(6) {
            0 => [&[7, 22, 1][..], &statement, &[0]].concat(),
            1 => [&[7, 21, 0, 1][..], &statement].concat(),
            2 => [&[8, 22, 2, 0][..], &statement].concat(),
            _ => statement,
        }
    }
}
