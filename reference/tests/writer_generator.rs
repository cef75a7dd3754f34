//! The generated cases of the writer: always the same ones, of every answer
//! and sort, and read back.

mod common;

use common::write_cases::{traits_of, TRAITS};
use reference::generator::writings::{case, in_order, WriteCase, FILL};
use reference::program::Program;
use reference::text::KEYWORDS;
use reference::writer::{appearances, is_read_back, write, Appearance, Fault, Sort, Writing};
use std::collections::BTreeMap;

const SEED: u64 = 20_240_501;

fn cases(count: u64) -> impl Iterator<Item = (WriteCase, Writing)> {
    (0..count).map(|index| {
        let case = case(SEED, index);
        let writing = write(&case.program, &case.source, &case.names, case.room);
        (case, writing)
    })
}

#[test]
fn every_answer_and_sort_comes_up() {
    let mut outcomes: BTreeMap<i32, usize> = BTreeMap::new();
    let mut faults: BTreeMap<Fault, usize> = BTreeMap::new();
    let mut traits: BTreeMap<&str, usize> = BTreeMap::new();
    for (case, writing) in cases(20_000) {
        *outcomes.entry(writing.outcome).or_default() += 1;
        if let Some(fault) = writing.fault {
            *faults.entry(fault).or_default() += 1;
        }
        for name in traits_of(&case) {
            *traits.entry(name).or_default() += 1;
        }
    }
    println!("{outcomes:?} {faults:?} {traits:?}");
    let numbers: Vec<i32> = outcomes.keys().copied().collect();
    assert_eq!(numbers, [0, 1, 2, 24, 25]);
    assert!(outcomes.values().all(|cases| *cases >= 300), "{outcomes:?}");
    assert!(outcomes[&0] >= 8000, "{outcomes:?}");
    let kinds: Vec<Fault> = faults.keys().copied().collect();
    assert_eq!(kinds, Fault::ALL);
    assert!(faults.values().all(|cases| *cases >= 20), "{faults:?}");
    for name in TRAITS {
        let found = traits.get(name).copied().unwrap_or(0);
        assert!(found >= 5, "{name} only {found} times");
    }
}

/// What is written comes back, and the bytes behind it and those of a refusal
/// are as they were.
#[test]
fn texts_are_read_back() {
    let mut written = 0;
    for (case, writing) in cases(8000) {
        let (answer, text) = case.answer();
        let (own, rest) = text.split_at(answer.bytes);
        assert!(rest.iter().all(|byte| *byte == FILL));
        assert_eq!((own, answer.outcome), (&writing.text[..], writing.outcome));
        if writing.outcome > 0 {
            assert_eq!((answer.bytes, answer.variables, answer.labels), (0, 0, 0));
            continue;
        }
        let (variables, labels) = (answer.variables, answer.labels);
        assert_eq!(answer.place, case.program.len());
        assert!(is_read_back(&case.program, own, variables, labels));
        assert!(!is_read_back(&case.program, own, variables + 1, labels));
        assert!(!is_read_back(&case.program, own, variables, labels + 1));
        assert!(!is_read_back(&[1, 0, 0], own, variables, labels));
        written += 1;
    }
    assert!(written > 3000, "only {written}");
}

/// The place of 25 is the room that the same text needs.
#[test]
fn refused_lengths_are_exact() {
    let mut refused = 0;
    for (case, writing) in cases(8000).filter(|(_, writing)| writing.outcome == 25) {
        let length = writing.place;
        let with = |room| write(&case.program, &case.source, &case.names, room);
        assert!(length > case.room || length > 65_536);
        let enough = with(length);
        match length <= 65_536 {
            true => assert_eq!((enough.outcome, enough.text.len()), (0, length)),
            false => assert_eq!((enough.outcome, enough.place), (25, length)),
        }
        let short = with(length - 1);
        assert_eq!((short.outcome, short.place), (25, length));
        refused += 1;
    }
    assert!(refused > 500, "only {refused}");
}

/// A name byte by byte, told apart from the reader's.
fn is_name(name: &[u8]) -> bool {
    let body = name.strip_suffix(b"?").unwrap_or(name);
    let fits = |byte: &u8| matches!(byte, b'a'..=b'z' | b'A'..=b'Z' | b'0'..=b'9' | b'_');
    let keyword = KEYWORDS.iter().any(|word| word.as_bytes() == name);
    matches!(body.first(), Some(b'a'..=b'z')) && body.iter().all(fits) && !keyword
}

/// The judgement over 24, number by number, as the documents say it.
struct Judge<'a> {
    case: &'a WriteCase,
    names: Vec<Appearance>,
}

impl Judge<'_> {
    fn first_use(&self, number: usize) -> Option<usize> {
        let (sort, own) = match number < 64 {
            true => (Sort::Variable, number),
            false => (Sort::Label, number - 64),
        };
        let mut uses = self.names.iter();
        uses.position(|name| name.sort == sort && name.number == own)
    }

    fn is_given(&self, number: usize) -> bool {
        self.case.names[2 * number + 1] != 0
    }

    fn counts(&self, number: usize) -> bool {
        self.is_given(number) || self.first_use(number).is_some()
    }

    fn name(&self, number: usize) -> Option<Vec<u8>> {
        if !self.is_given(number) {
            let name = match number < 64 {
                true => format!("v{number}"),
                false => format!("f{}", number - 64),
            };
            return Some(name.into_bytes());
        }
        let place = i64::from(self.case.names[2 * number]);
        let length = i64::from(self.case.names[2 * number + 1]);
        let fits = place >= 0 && length > 0 && place + length <= self.case.source.len() as i64;
        fits.then(|| self.case.source[place as usize..(place + length) as usize].to_vec())
    }

    fn is_at_fault(&self, number: usize) -> bool {
        let first = if number < 64 { 0 } else { 64 };
        let name = self.name(number);
        let fit = name
            .as_ref()
            .is_some_and(|name| name.len() <= 65_536 && is_name(name));
        let mut earlier = (first..number).filter(|other| self.counts(*other));
        let is_twice = self.counts(number) && earlier.any(|other| self.name(other) == name);
        let is_late = number == first
            || match (self.first_use(number), self.first_use(number - 1)) {
                (None, _) => true,
                (Some(own), Some(before)) => before < own,
                (Some(_), None) => false,
            };
        self.is_given(number) && !fit || is_twice || !is_late
    }
}

#[test]
fn names_are_judged_number_by_number() {
    let (mut judged, mut at_fault) = (0, 0);
    for (case, writing) in cases(6000) {
        let (Ok(tree), false) = (Program::decode(&case.program), writing.outcome == 1) else {
            continue;
        };
        let names = appearances(&tree);
        let judge = Judge { case: &case, names };
        let first = (0..96).find(|number| judge.is_at_fault(*number));
        let told = (writing.outcome == 24).then_some(writing.place);
        assert_eq!(told, first, "{case:?}");
        judged += 1;
        at_fault += usize::from(first.is_some());
    }
    assert!(judged > 4000 && at_fault > 1000, "{judged} {at_fault}");
}

#[test]
fn numbers_by_first_appearance() {
    let words = in_order(&[1, 2, 9, 2, 7, 24, 3, 1, 4, 4, 24, 9, 0]);
    let expected = vec![1, 2, 0, 2, 0, 24, 1, 1, 1, 1, 24, 0, 0];
    assert_eq!(words, Some(expected));
    assert_eq!(in_order(&[1]), None);
    for (case, writing) in cases(3000) {
        let renumbered = in_order(&case.program);
        match writing.outcome {
            0 | 25 => assert_eq!(renumbered, Some(case.program)),
            2 => assert_eq!(renumbered, None),
            _ => {}
        }
    }
}

#[test]
fn a_seed_and_number_give_the_same_case() {
    for index in 0..300 {
        assert_eq!(case(SEED, index), case(SEED, index));
    }
    assert_ne!(case(SEED, 0), case(SEED + 1, 0));
    assert_ne!(case(SEED, 0), case(SEED, 1));
}

/// All numbers and bytes of a case, one behind the other.
fn bytes(case: WriteCase) -> impl Iterator<Item = u8> {
    let room = case.room as u32;
    let words = case.program.into_iter().chain(case.names);
    let words = words.flat_map(i32::to_le_bytes);
    words.chain(case.source).chain(room.to_le_bytes())
}

#[test]
fn the_same_cases_on_every_machine() {
    let all = (0..500).flat_map(|index| bytes(case(1, index)));
    let step = |sum: u64, byte| (sum ^ u64::from(byte)).wrapping_mul(0x0100_0000_01b3);
    let digest = all.fold(0xcbf2_9ce4_8422_2325, step);
    assert_eq!(digest, 10_357_289_550_504_191_811);
}
