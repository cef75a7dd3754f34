//! Entries of a list: targets, and the literals that they are given.

/// How many variables there are.
pub(crate) const VARIABLES: usize = 64;
/// How many labels there are.
pub(crate) const LABELS: usize = 32;

/// The most labels that a path may have.
pub(crate) const LONGEST_PATH: usize = 7;

/// The most words that an entry may have: variable, count and labels of a
/// path, and an integer with its 23.
pub const LONGEST_ENTRY: usize = 2 + LONGEST_PATH + 2;

/// What an entry may give: a value that is no reference.
#[derive(Clone, Copy, Debug, PartialEq, Eq, Hash)]
pub enum Literal {
    /// No record.
    Nil,
    /// A boolean.
    Bool(bool),
    /// A whole number.
    Int(i32),
}

/// An entry of a list: a target, and the literal that it is given.
///
/// [`Program::entry`](crate::Program::entry) makes one from names. Its words
/// always read, so that no list of such entries is refused with
/// [`Outcome::UnfitAssignment`](crate::Outcome::UnfitAssignment).
///
/// ```
/// use cordbasin::{Entry, Literal};
///
/// let entry = Entry::new(0, &[1], Literal::Int(32)).expect("a target");
/// assert_eq!(entry.words(), [0, 1, 1, 23, 32]);
/// ```
#[derive(Clone, Copy, Debug, PartialEq, Eq, Hash)]
pub struct Entry {
    words: [i32; LONGEST_ENTRY],
    count: usize,
}

impl Entry {
    /// The entry whose target is the path from a variable, 0 to 63, through at
    /// most 7 labels, 0 to 31; none if that is no target.
    pub fn new(variable: usize, labels: &[usize], literal: Literal) -> Option<Entry> {
        let mut entry = Entry {
            words: [0; LONGEST_ENTRY],
            count: 0,
        };
        entry.put(below(VARIABLES, variable)?)?;
        entry.put(below(LONGEST_PATH + 1, labels.len())?)?;
        for label in labels {
            entry.put(below(LABELS, *label)?)?;
        }
        match literal {
            Literal::Nil => entry.put(20)?,
            Literal::Bool(false) => entry.put(21)?,
            Literal::Bool(true) => entry.put(22)?,
            Literal::Int(number) => {
                entry.put(23)?;
                entry.put(number)?;
            }
        }
        Some(entry)
    }

    /// The words that [`assign`](crate::assign) takes, with those of other
    /// entries before and behind them.
    pub fn words(&self) -> &[i32] {
        self.words.get(..self.count).unwrap_or_default()
    }

    /// None where there is no room, which there is for every target and literal.
    fn put(&mut self, word: i32) -> Option<()> {
        *self.words.get_mut(self.count)? = word;
        self.count += 1;
        Some(())
    }
}

/// A list of entries, in words that the host lends it. A list of n entries has
/// room in n times [`LONGEST_ENTRY`] words.
///
/// ```
/// use cordbasin::{Entries, Entry, Literal, LONGEST_ENTRY};
///
/// let mut room = [0; 2 * LONGEST_ENTRY];
/// let mut list = Entries::new(&mut room);
/// assert!(list.push(Entry::new(0, &[1], Literal::Int(32)).expect("a target")));
/// assert!(list.push(Entry::new(2, &[], Literal::Nil).expect("a target")));
/// assert_eq!(list.words(), [0, 1, 1, 23, 32, 2, 0, 20]);
/// ```
#[derive(Debug)]
pub struct Entries<'w> {
    room: &'w mut [i32],
    used: usize,
}

impl<'w> Entries<'w> {
    /// No entries yet.
    pub fn new(room: &'w mut [i32]) -> Entries<'w> {
        Entries { room, used: 0 }
    }

    /// Puts an entry behind the others. False where there is no room for it;
    /// the list is then as it was.
    #[must_use = "there may be no room"]
    pub fn push(&mut self, entry: Entry) -> bool {
        let words = entry.words();
        let end = self.used + words.len();
        let Some(place) = self.room.get_mut(self.used..end) else {
            return false;
        };
        place.copy_from_slice(words);
        self.used = end;
        true
    }

    /// The words of all of them, as [`assign_words`](crate::assign_words)
    /// takes them.
    pub fn words(&self) -> &[i32] {
        self.room.get(..self.used).unwrap_or_default()
    }
}

impl AsRef<[i32]> for Entries<'_> {
    fn as_ref(&self) -> &[i32] {
        self.words()
    }
}

/// A number as a word, if it is below the end.
fn below(end: usize, number: usize) -> Option<i32> {
    i32::try_from(number).ok().filter(|_| number < end)
}
