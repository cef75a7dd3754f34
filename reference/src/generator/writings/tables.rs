//! Names laid into a source, and the table of their places and lengths.

use crate::generator::numbers::Numbers;
use crate::generator::texts::spelling::Spelling;
use crate::program::Program;
use crate::text::{LABELS, NAME_WORDS, VARIABLES};
use crate::writer::{appearances, Sort};

/// Numbers of both sorts: variables, and labels from 64 on.
pub const SLOTS: usize = VARIABLES + LABELS;

/// A source, and the names given over it.
#[derive(Clone, Debug)]
pub struct Table {
    pub source: Vec<u8>,
    pub names: Vec<i32>,
}

/// The slots that a program uses, in the order of their first appearance.
pub fn used(program: &[i32]) -> Vec<usize> {
    let Ok(tree) = Program::decode(program) else {
        return vec![0, 1, VARIABLES];
    };
    let mut slots = Vec::new();
    for name in appearances(&tree) {
        let slot = match name.sort {
            Sort::Variable => name.number,
            Sort::Label => VARIABLES + name.number,
        };
        if !slots.contains(&slot) {
            slots.push(slot);
        }
    }
    slots
}

/// The name of a slot that is given none.
pub fn default_name(slot: usize) -> Vec<u8> {
    let name = match slot < VARIABLES {
        true => format!("v{slot}"),
        false => format!("f{}", slot - VARIABLES),
    };
    name.into_bytes()
}

impl Table {
    pub fn new(source: Vec<u8>) -> Table {
        Table {
            source,
            names: vec![0; NAME_WORDS],
        }
    }

    /// Names that can be written, in any of the ways that they are given in.
    pub fn any(numbers: &mut Numbers, program: &[i32]) -> Table {
        let used = used(program);
        match numbers.below(12) {
            0..=2 => Table::none(numbers),
            3..=5 => Table::spelled(numbers, &used, 100, 0),
            6 | 7 => Table::spelled(numbers, &used, 50, 0),
            8 => Table::spelled(numbers, &used, 80, 20),
            9 => Table::spelled(numbers, &used, 100, 100),
            10 => Table::shared(numbers, &used),
            _ => Table::defaults(numbers, &used),
        }
    }

    /// No name at all; places are of no account then.
    fn none(numbers: &mut Numbers) -> Table {
        let count = numbers.below(20) / 2;
        let mut table = Table::new((0..count).map(|_| numbers.below(256) as u8).collect());
        if numbers.chance(30) {
            for place in table.names.iter_mut().step_by(2) {
                *place = numbers.word();
            }
        }
        table
    }

    /// Names for so many in a hundred of the used numbers and of the others.
    fn spelled(numbers: &mut Numbers, used: &[usize], some: usize, others: usize) -> Table {
        let spelling = Spelling::new(numbers);
        let mut table = Table::new(Vec::new());
        let mut slots: Vec<usize> = (0..SLOTS)
            .filter(|slot| numbers.chance(if used.contains(slot) { some } else { others }))
            .collect();
        if numbers.chance(30) {
            slots.reverse();
        }
        for slot in slots {
            let name = match slot < VARIABLES {
                true => spelling.variable(slot),
                false => spelling.label(slot - VARIABLES),
            };
            table.give(numbers, slot, name);
        }
        table
    }

    /// Names that overlap: parts of one long name.
    fn shared(numbers: &mut Numbers, used: &[usize]) -> Table {
        let count = 20 + numbers.below(200);
        let bytes = (0..count).filter_map(|_| numbers.pick(b"abcxyzABC019_"));
        let mut table = Table::new([b'q'].into_iter().chain(bytes).collect());
        for slot in used {
            let place = numbers.below(table.source.len());
            let front = table.source.get(..=place).unwrap_or(&[]);
            let place = front.iter().rposition(u8::is_ascii_lowercase).unwrap_or(0);
            let length = 1 + numbers.below((table.source.len() - place).min(30));
            table.set(*slot, small(place), small(length));
        }
        table
    }

    /// Some numbers are given the names that they have without.
    fn defaults(numbers: &mut Numbers, used: &[usize]) -> Table {
        let mut table = Table::new(Vec::new());
        for slot in 0..SLOTS {
            let percent = if used.contains(&slot) { 60 } else { 5 };
            if numbers.chance(percent) {
                table.give(numbers, slot, &default_name(slot));
            }
        }
        table
    }

    pub fn set(&mut self, slot: usize, place: i32, length: i32) {
        let words = self.names.iter_mut().skip(2 * slot);
        for (word, new) in words.zip([place, length]) {
            *word = new;
        }
    }

    /// Lays a name into the source, behind anything or directly behind the
    /// last one.
    pub fn give(&mut self, numbers: &mut Numbers, slot: usize, name: &[u8]) {
        let between = numbers.below(4);
        self.source
            .extend((0..between).map(|_| numbers.below(256) as u8));
        self.set(slot, small(self.source.len()), small(name.len()));
        self.source.extend(name);
        if numbers.chance(5) {
            self.source.push(numbers.below(256) as u8);
        }
    }

    pub fn pair(&self, slot: usize) -> (i32, i32) {
        match self.names.get(2 * slot..) {
            Some(&[place, length, ..]) => (place, length),
            _ => (0, 0),
        }
    }

    /// The name that a slot has, given or not.
    pub fn name(&self, slot: usize) -> Vec<u8> {
        let (place, length) = self.pair(slot);
        let place = usize::try_from(place).unwrap_or(usize::MAX);
        let length = usize::try_from(length).unwrap_or(0);
        let given = self.source.get(place..place.saturating_add(length));
        match given {
            Some(name) if length > 0 => name.to_vec(),
            _ => default_name(slot),
        }
    }
}

pub fn small(number: usize) -> i32 {
    i32::try_from(number).unwrap_or(i32::MAX)
}
