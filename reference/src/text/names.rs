//! The names of a text, numbered by first appearance.

use super::NAME_WORDS;

pub const VARIABLES: usize = 64;
pub const LABELS: usize = 32;

#[derive(Debug, Default)]
pub struct Names<'a> {
    variables: Vec<Appearance<'a>>,
    labels: Vec<Appearance<'a>>,
}

/// A name where it stands first.
#[derive(Debug)]
struct Appearance<'a> {
    name: &'a [u8],
    place: usize,
}

impl<'a> Names<'a> {
    /// A variable's number; none for the 65th.
    pub fn variable(&mut self, name: &'a [u8], place: usize) -> Option<usize> {
        number(&mut self.variables, VARIABLES, name, place)
    }

    /// A label's number; none for the 33rd.
    pub fn label(&mut self, name: &'a [u8], place: usize) -> Option<usize> {
        number(&mut self.labels, LABELS, name, place)
    }

    /// The number of a label that has appeared before.
    pub fn known_label(&self, name: &[u8]) -> Option<usize> {
        self.labels.iter().position(|known| known.name == name)
    }

    pub fn variables(&self) -> usize {
        self.variables.len()
    }

    pub fn labels(&self) -> usize {
        self.labels.len()
    }

    /// Place and length of each first appearance, variables and then labels.
    pub fn table(&self) -> Vec<i32> {
        let mut table = pairs(&self.variables);
        table.resize(2 * VARIABLES, 0);
        table.extend(pairs(&self.labels));
        table.resize(NAME_WORDS, 0);
        table
    }
}

fn number<'a>(
    known: &mut Vec<Appearance<'a>>,
    most: usize,
    name: &'a [u8],
    place: usize,
) -> Option<usize> {
    let earlier = known.iter().position(|earlier| earlier.name == name);
    if earlier.is_some() || known.len() == most {
        return earlier;
    }
    known.push(Appearance { name, place });
    Some(known.len() - 1)
}

fn pairs(names: &[Appearance]) -> Vec<i32> {
    let numbers = names.iter().flat_map(|name| [name.place, name.name.len()]);
    numbers
        .filter_map(|word| i32::try_from(word).ok())
        .collect()
}
