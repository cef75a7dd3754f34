//! Texts for comparing two readers: a seed and a number give a text.

pub(super) mod edges;
pub(super) mod grow;
mod page;
pub(super) mod print;
pub(super) mod sizes;
pub(super) mod spelling;
mod spoil;
pub(super) mod tree;

use super::numbers::Numbers;
use grow::Grower;
pub use page::Expected;
use page::{Page, Spacing};
use print::{print, Manner, Printed};
use spelling::Spelling;
use tree::Block;

/// A text, and what a reader has to find in it where that is known.
#[derive(Clone, Debug, PartialEq, Eq)]
pub struct Sample {
    pub text: Vec<u8>,
    pub expected: Option<Expected>,
}

/// The text of a seed and number, the same on every machine.
pub fn text(seed: u64, index: u64) -> Vec<u8> {
    sample(seed, index).text
}

/// The text of a seed and number, with what it was printed from.
pub fn sample(seed: u64, index: u64) -> Sample {
    let mut numbers = Numbers::new(seed, index);
    let numbers = &mut numbers;
    match numbers.below(100) {
        0..=24 => grown(numbers),
        25..=49 => damaged(numbers),
        50..=67 => edge(numbers),
        68..=77 => named(numbers),
        78..=80 => met(numbers),
        81..=86 => filled(numbers),
        87..=90 => owing(numbers),
        91..=94 => sized(numbers),
        95 => bracketed(numbers),
        _ => random(numbers),
    }
}

fn bare(text: Vec<u8>) -> Sample {
    let expected = None;
    Sample { text, expected }
}

/// A page of a program, with what it was printed from.
fn set(numbers: &mut Numbers, manner: Manner, program: &Block) -> (Page, Printed) {
    let spelling = Spelling::new(numbers);
    let printed = print(numbers, &spelling, manner, program);
    let spacing = Spacing::any(numbers);
    let page = Page::new(numbers, spacing, &printed.tokens);
    (page, printed)
}

/// The text of a page. `fits` says that the program is within every limit but
/// those of words and bytes.
fn written(page: &Page, printed: &Printed, fits: bool) -> Sample {
    Sample {
        text: page.bytes(),
        expected: page.expected(printed).filter(|_| fits),
    }
}

pub(super) fn program(numbers: &mut Numbers) -> Block {
    let count = match numbers.below(10) {
        0 => 20,
        1..=3 => 6,
        _ => 1 + numbers.below(3),
    };
    let count = numbers.below(count + 1);
    let blocks = numbers.below(4);
    Grower::new(numbers).block(count, blocks)
}

fn grown(numbers: &mut Numbers) -> Sample {
    let program = program(numbers);
    let manner = Manner::any(numbers);
    let (page, printed) = set(numbers, manner, &program);
    written(&page, &printed, true)
}

fn damaged(numbers: &mut Numbers) -> Sample {
    let program = program(numbers);
    let manner = Manner::any(numbers);
    let (page, printed) = set(numbers, manner, &program);
    spoilt(numbers, &page, printed, usize::MAX)
}

/// One or two tokens or bytes of a text spoilt, among so many last ones.
fn spoilt(numbers: &mut Numbers, page: &Page, printed: Printed, last: usize) -> Sample {
    let times = 1 + numbers.below(4) / 2;
    let mut text = page.bytes();
    if numbers.chance(60) {
        let mut tokens = printed.tokens;
        for _ in 0..times {
            spoil::spoil_tokens(numbers, &mut tokens, last);
        }
        let spacing = Spacing::any(numbers);
        text = Page::new(numbers, spacing, &tokens).bytes();
    } else {
        for _ in 0..times {
            spoil::spoil_bytes(numbers, &mut text, last);
        }
    }
    bare(text)
}

/// A program as it is, or now and then with something in it spoilt, near its
/// end mostly, where it meets its limit.
fn mostly_whole(numbers: &mut Numbers, manner: Manner, program: &Block, fits: bool) -> Sample {
    let (page, printed) = set(numbers, manner, program);
    match numbers.below(16) {
        0 => spoilt(numbers, &page, printed, usize::MAX),
        1 | 2 => spoilt(numbers, &page, printed, 10),
        _ => written(&page, &printed, fits),
    }
}

fn edge(numbers: &mut Numbers) -> Sample {
    let edge = edges::tree(numbers);
    let manner = Manner::any(numbers);
    mostly_whole(numbers, manner, &edge.program, edge.fits)
}

fn named(numbers: &mut Numbers) -> Sample {
    let edge = edges::names(numbers);
    let manner = Manner::any(numbers);
    mostly_whole(numbers, manner, &edge.program, edge.fits)
}

fn met(numbers: &mut Numbers) -> Sample {
    let program = edges::meeting(numbers);
    let manner = Manner::plain(numbers);
    mostly_whole(numbers, manner, &program, false)
}

fn filled(numbers: &mut Numbers) -> Sample {
    let spelling = Spelling::new(numbers);
    let program = sizes::words(numbers, &spelling);
    let mut manner = Manner::any(numbers);
    manner.most = 1;
    mostly_whole(numbers, manner, &program, true)
}

fn owing(numbers: &mut Numbers) -> Sample {
    let program = sizes::owed(numbers);
    let mut manner = Manner::plain(numbers);
    manner.bare = 100;
    manner.brackets = if numbers.chance(25) { 30 } else { 0 };
    mostly_whole(numbers, manner, &program, true)
}

fn sized(numbers: &mut Numbers) -> Sample {
    let program = program(numbers);
    let manner = Manner::any(numbers);
    let (mut page, printed) = set(numbers, manner, &program);
    if numbers.chance(30) {
        sizes::pad_spoilt(numbers, &mut page);
        return bare(page.bytes());
    }
    match numbers.chance(15) {
        true => sizes::stretch(numbers, &mut page),
        false => sizes::pad(numbers, &mut page),
    }
    written(&page, &printed, true)
}

fn bracketed(numbers: &mut Numbers) -> Sample {
    let program = program(numbers);
    let manner = Manner::any(numbers);
    let (mut page, printed) = set(numbers, manner, &program);
    let fits = sizes::bracket(numbers, &mut page);
    written(&page, &printed, fits)
}

fn random(numbers: &mut Numbers) -> Sample {
    if numbers.chance(50) {
        return bare(spoil::random_bytes(numbers));
    }
    let tokens = spoil::random_tokens(numbers);
    let spacing = Spacing::any(numbers);
    bare(Page::new(numbers, spacing, &tokens).bytes())
}
