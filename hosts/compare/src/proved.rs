//! The proved functions of crates/compared, and the x86-64 code of the calls
//! of crates/cordbasin.

#[cfg_attr(target_arch = "x86_64", path = "linked.rs")]
#[cfg_attr(not(target_arch = "x86_64"), path = "bridged.rs")]
mod way;

pub use way::Proved;

/// Which function is asked about a piece, under the number that the bridge
/// knows it by.
#[derive(Clone, Copy, Debug, PartialEq, Eq, PartialOrd, Ord)]
pub enum Call {
    Path = 0,
    Expression = 1,
    Test = 2,
    Constraint = 3,
    Kept = 4,
}

/// A piece of the words by its first word. `Call::Kept` is of all the words.
#[derive(Clone, Copy, Debug, PartialEq, Eq)]
pub struct Piece {
    pub call: Call,
    pub start: usize,
}

/// Pieces in a list of words, over tables that may be unfit and of any length.
#[derive(Debug, Default)]
pub struct Pieces {
    pub words: Vec<i32>,
    pub environment: Vec<i32>,
    pub heap: Vec<i32>,
    pub constraints: Vec<i32>,
    pub pieces: Vec<Piece>,
}

/// 0 and what was found, or the number of a refusal and how many words are
/// left from the word at fault on. A path: location, words left. An
/// expression: kind, payload, words left. A test: 1 or 0. Constraints: 1 where
/// all parts are satisfied, 1 where the required ones are.
pub type Four = [i32; 4];

/// The words of a call's answer, four or three, and the number that it returns.
pub type Told<const WORDS: usize = 4> = ([i32; WORDS], usize);

/// All that is asked about one program; each table has 98 words.
#[derive(Debug, Default)]
pub struct Question {
    pub program: Vec<i32>,
    pub places: Vec<usize>,
    pub tables: Vec<Vec<i32>>,
}

/// The program's number is 0 where it reads, else 1 more than the place of
/// its first unfit word. A place's number is 0 where no statement begins, else
/// 1 + 16 * verb + how deep its blocks may nest. A fit table's is 1, else 0.
#[derive(Debug, PartialEq, Eq)]
pub struct Answer {
    pub program: usize,
    pub statements: Vec<usize>,
    pub tables: Vec<usize>,
}
